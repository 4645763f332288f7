// Writes rows of questions with the hardware's answers, for the programs under crates/ that compare. See README.md.
mod component;
mod float;
mod random;

fn main() {
    match std::env::args().nth(1).as_deref() {
        Some("float") => float::write(),
        Some("component") => component::write(),
        _ => {
            eprintln!("usage: rows float|component");
            std::process::exit(1);
        }
    }
}
