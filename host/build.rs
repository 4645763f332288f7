//! Says where the static library stands: `target/lib`, where `host/build` puts it, or the folder that DOTTERELWIRE_LIB names.
use std::path::PathBuf;

fn main() {
    let here = PathBuf::from(std::env::var_os("CARGO_MANIFEST_DIR").unwrap_or_default());
    let folder = std::env::var_os("DOTTERELWIRE_LIB").map_or(here.join("target/lib"), PathBuf::from);
    let archive = folder.join("libdotterelwire.a");
    println!("cargo:rerun-if-env-changed=DOTTERELWIRE_LIB");
    println!("cargo:rerun-if-changed={}", archive.display());
    if !archive.is_file() {
        println!("cargo:warning={} is not there: host/build makes it", archive.display());
    }
    println!("cargo:rustc-link-search=native={}", folder.display());
    println!("cargo:rustc-link-lib=static=dotterelwire");
    println!("cargo:lib={}", folder.display());
}
