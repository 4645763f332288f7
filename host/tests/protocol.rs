//! The program `console`: the recorded cases, and what the protocol says of a line.
mod common;

use common::Random;
use dotterelwire::console::Console;
use std::io::Write;
use std::process::{Command, Stdio};

/// What the program answers to a script.
fn run(script: &[u8]) -> Vec<u8> {
    let mut console =
        Command::new(env!("CARGO_BIN_EXE_console")).stdin(Stdio::piped()).stdout(Stdio::piped()).spawn().unwrap();
    let mut input = console.stdin.take().unwrap();
    let script = script.to_vec();
    let writing = std::thread::spawn(move || input.write_all(&script));
    let output = console.wait_with_output().unwrap();
    writing.join().unwrap().unwrap();
    assert!(output.status.success());
    output.stdout
}

fn recorded(name: &str) -> Vec<u8> {
    let path = format!("{}/../crates/cases/{name}", env!("CARGO_MANIFEST_DIR"));
    std::fs::read(path).unwrap()
}

/// The script of crate `cases`, with the recorded answers; that program prints comments too.
#[test]
fn the_recorded_cases() {
    let (script, wanted) = (recorded("stdin"), recorded("stdout"));
    let lines = |bytes: &[u8]| String::from_utf8(bytes.to_vec()).unwrap();
    let wanted = lines(&wanted);
    let wanted: Vec<&str> = wanted.lines().filter(|line| !line.starts_with('#')).collect();
    let answers = lines(&run(&script));
    let answers: Vec<&str> = answers.lines().collect();
    for (i, (answer, wanted)) in answers.iter().zip(&wanted).enumerate() {
        assert_eq!(answer, wanted, "answer {}", i + 1);
    }
    assert_eq!(answers.len(), wanted.len());
    assert!(wanted.len() > 1000);
}

#[test]
fn the_last_line_needs_no_end() {
    assert_eq!(run(b"new\n\n# a comment\ndump"), b"ok\nok default - components 0 lists 0\n");
    assert_eq!(run(b""), b"");
}

fn answer(console: &mut Console, line: &str) -> String {
    console.answer(line.as_bytes()).unwrap()
}

#[test]
fn lines_that_are_no_command_are_errors_and_change_nothing() {
    let mut console = Console::new();
    assert_eq!(answer(&mut console, "add_constant 61 3ff0000000000000"), "ok 61");
    let before = answer(&mut console, "dump");
    let lines = [
        " ",
        "new ",
        " new",
        "new new",
        "New",
        "dump x",
        "add_constant",
        "add_constant 61",
        "add_constant 6 3ff0000000000000",
        "add_constant 6g 3ff0000000000000",
        "add_constant 62 3ff000000000000",
        "add_constant 62 +ff0000000000000",
        "add_constant 62 3ff0000000000000 00",
        "add_constant  62 3ff0000000000000",
        "add_constant é 3ff0000000000000",
        "add_function 62 sphere 3ff0000000000000",
        "add_function 62 ball",
        "add_operation 62 Add",
        "add_operation 62 Add inputs",
        "add_operation 62 Add inputs 18446744073709551615 61",
        "add_operation 62 Add some",
        "add_input 62 61 -1",
        "add_input 62 61 +1",
        "add_input 62 61 ",
        "remove_input 61 18446744073709551616",
        "set_parameter 61 78 boolean 2",
        "set_parameter 61 78 text",
        "set_parameter 61 78 vec3 3ff0000000000000",
        "vec3 cross 3ff0000000000000",
        "vec3 add 3ff0000000000000",
        "compile",
        "compile -",
        "load",
        "load default",
        "load default - components 1 lists 0",
        "load default - components 18446744073709551615 lists 0",
        "load default - components 0 lists 0 more",
        "load default - components 0 lists 1 61 18446744073709551615 -",
    ];
    for line in lines {
        let said = answer(&mut console, line);
        assert!(said.starts_with("error "), "{line}: {said}");
    }
    assert!(console.answer(b"add_constant \xff 3ff0000000000000").unwrap().starts_with("error "));
    assert_eq!(console.answer(b""), None);
    assert_eq!(console.answer(b"# new"), None);
    assert_eq!(answer(&mut console, "dump"), before);
}

#[test]
fn a_record_that_7_refuses_stays_refused_until_another() {
    let mut console = Console::new();
    assert_eq!(answer(&mut console, "load default 61 components 0 lists 0"), "ok");
    for line in ["dump", "compile 61", "add_constant 61 3ff0000000000000"] {
        assert_eq!(answer(&mut console, line), "refused 7 . 0");
    }
    assert_eq!(answer(&mut console, "load default - components 0 lists 0"), "ok");
    assert_eq!(answer(&mut console, "dump"), "ok default - components 0 lists 0");
    let long = "61".repeat(33);
    assert_eq!(answer(&mut console, &format!("load default - components 1 {long} Add lists 1 {long} 2 - -")), "ok");
    assert_eq!(answer(&mut console, "dump"), "refused 7 . 0");
    assert_eq!(answer(&mut console, "new"), "ok");
    assert_eq!(answer(&mut console, "dump"), "ok default - components 0 lists 0");
}

#[test]
fn vectors_and_the_one_nan() {
    let mut console = Console::new();
    let (one, two, six) = ("3ff0000000000000", "4000000000000000", "4018000000000000");
    let three = "4008000000000000";
    let vectors = format!("{one} {one} {one} {two} {two} {two}");
    assert_eq!(answer(&mut console, &format!("vec3 add {vectors}")), format!("ok {three} {three} {three}"));
    let less = "bff0000000000000";
    assert_eq!(answer(&mut console, &format!("vec3 sub {vectors}")), format!("ok {less} {less} {less}"));
    assert_eq!(answer(&mut console, &format!("vec3 dot {vectors}")), format!("ok {six}"));
    assert_eq!(answer(&mut console, &format!("vec3 scale {one} {one} {one} {two}")), format!("ok {two} {two} {two}"));
    let nan = "ok 7ff8000000000000";
    assert_eq!(answer(&mut console, &format!("vec3 dot FFFfffffffffffff {one} {one} {one} {one} {one}")), nan);
    assert_eq!(answer(&mut console, "add_constant 61 fff0000000000001"), "ok 61");
    assert_eq!(answer(&mut console, &format!("evaluate_at 61 {one} {one} {one}")), nan);
    let infinite = "7ff0000000000000";
    assert_eq!(
        answer(&mut console, &format!("vec3 dot {infinite} {infinite} {one} {one} fff0000000000000 {one}")),
        nan
    );
}

/// Lines of the recorded script with bytes changed, words dropped and lines cut: each gets an answer.
#[test]
fn mangled_lines() {
    let script = recorded("stdin");
    let lines: Vec<&[u8]> = script.split(|b| *b == b'\n').filter(|line| line.len() < 2000).collect();
    let random = &mut Random::new(5);
    let mut console = Console::new();
    let (mut errors, mut others) = (0, 0);
    for _ in 0..3000 {
        let line = lines[random.below(lines.len())];
        let line = mangled(random, line);
        match console.answer(&line) {
            None => assert!(line.is_empty() || line[0] == b'#'),
            Some(said) if said.starts_with("error ") => errors += 1,
            Some(said) => {
                assert!(said == "ok" || said.starts_with("ok ") || said.starts_with("refused "), "{said}");
                others += 1;
            }
        }
    }
    assert!(errors > 500 && others > 500, "{errors} errors, {others} others");
}

fn mangled(random: &mut Random, line: &[u8]) -> Vec<u8> {
    let mut line = line.to_vec();
    if line.is_empty() {
        return line;
    }
    let at = random.below(line.len());
    match random.below(5) {
        0 => line[at] = random.word() as u8,
        1 => line[at] = *random.pick(b"0123456789abcdef .-"),
        2 => line.truncate(at),
        3 => drop(line.remove(at)),
        _ => {}
    }
    line
}
