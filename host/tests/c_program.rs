//! The C header: the example is compiled with every warning an error, linked and run.
use std::path::{Path, PathBuf};
use std::process::{Command, Output};

const ANSWERS: &str = "\
(3, 0, 4): -1, wall
(0, 0, 0): -1, wall
(0, 3, 0): 2, air
refused 14 \"both\" 0
refused 12 \"bell\" 0
";

/// Where the static library stands, as in build.rs.
fn archive() -> PathBuf {
    let here = Path::new(env!("CARGO_MANIFEST_DIR"));
    let folder = std::env::var_os("DOTTERELWIRE_LIB").map_or(here.join("target/lib"), PathBuf::from);
    folder.join("libdotterelwire.a")
}

fn text(bytes: &[u8]) -> String {
    String::from_utf8_lossy(bytes).into_owned()
}

fn run(command: &mut Command) -> Output {
    let output = command.output().unwrap();
    assert!(output.status.success(), "{}", text(&output.stderr));
    output
}

#[test]
fn a_program_in_c() {
    let here = Path::new(env!("CARGO_MANIFEST_DIR"));
    let program = Path::new(env!("CARGO_TARGET_TMPDIR")).join("ring");
    let mut compile = Command::new("cc");
    compile.args(["-std=c99", "-O2", "-Wall", "-Wextra", "-Wpedantic", "-Werror", "-I"]);
    compile.arg(here.join("include")).arg(here.join("examples/ring.c"));
    run(compile.arg(archive()).arg("-o").arg(&program));
    assert_eq!(text(&run(&mut Command::new(program)).stdout), ANSWERS);
}

/// Each call of the header is in the library, and each of the library in the header.
#[test]
fn the_header_names_every_call() {
    let header = include_str!("../include/dotterelwire.h");
    let symbols = run(Command::new("nm").arg("--defined-only").arg("--extern-only").arg(archive()));
    let symbols = text(&symbols.stdout);
    let mut exported: Vec<&str> = symbols.lines().filter_map(|line| line.split(" T ").nth(1)).collect();
    exported.sort_unstable();
    let mut declared: Vec<&str> = header.lines().filter_map(declared).collect();
    declared.sort_unstable();
    assert_eq!(declared, exported);
}

/// The call that a line of the header declares.
fn declared(line: &str) -> Option<&str> {
    let rest = line.strip_prefix("uint32_t ").or_else(|| line.strip_prefix("double "))?;
    rest.split('(').next()
}
