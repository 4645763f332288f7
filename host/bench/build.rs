//! Links the static library that `host/build` wrote; its folder is in DOTTERELWIRE_LIB.
fn main() {
    println!("cargo:rerun-if-env-changed=DOTTERELWIRE_LIB");
    if let Ok(folder) = std::env::var("DOTTERELWIRE_LIB") {
        println!("cargo:rustc-link-search=native={folder}");
    }
    println!("cargo:rustc-link-lib=static=dotterelwire");
}
