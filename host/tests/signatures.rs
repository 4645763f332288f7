//! The calls in Rattle, in the C header and in ffi.rs take the same arguments: no compiler sees more than one of the three. And
//! what crate dotterelwire exports says what the functions say that it calls.
use std::collections::BTreeMap;
use std::fs;
use std::path::{Path, PathBuf};

/// What each call takes, by its name.
type Signatures = BTreeMap<String, Vec<&'static str>>;

/// What stands ahead of the name of a call that is exported.
const EXPORTED: &str = "pub extern \"C\" fn ";

/// The crates whose functions are exported.
const CRATES: [&str; 11] = [
    "adding_operation_calls",
    "adding_calls",
    "calls",
    "wiring_calls",
    "edit_lists",
    "asking",
    "compiling",
    "checking",
    "showing",
    "showing_parameters",
    "boundary",
];

fn root() -> PathBuf {
    Path::new(env!("CARGO_MANIFEST_DIR")).join("..")
}

/// The calls of a text whose names stand behind a word, with each argument as `kind` understands it.
fn signatures(text: &str, behind: &str, kind: fn(&str) -> Option<&'static str>) -> Signatures {
    let starts = text.match_indices(behind).map(|(at, _)| &text[at + behind.len()..]);
    let called = starts.filter(|rest| rest.starts_with("dw_")).filter_map(|rest| {
        let (name, rest) = rest.split_once('(')?;
        let (arguments, _) = rest.split_once(')')?;
        Some((name.to_string(), arguments.split(',').filter_map(kind).collect()))
    });
    called.collect()
}

fn in_rattle(argument: &str) -> Option<&'static str> {
    match argument.split_once(':')?.1.trim() {
        "&mut [u8]" => Some("change"),
        "&[u8]" => Some("read"),
        "u64" => Some("word"),
        "f64" => Some("number"),
        _ => Some("unknown"),
    }
}

/// The length of a slice comes with its address.
fn in_c(argument: &str) -> Option<&'static str> {
    let typed: Vec<&str> = argument.split_whitespace().collect();
    match typed.as_slice() {
        ["const", "uint8_t", _] => Some("read"),
        ["uint8_t", _] => Some("change"),
        ["uint64_t", _] => Some("word"),
        ["double", _] => Some("number"),
        ["size_t", _] => None,
        _ => Some("unknown"),
    }
}

fn in_rust(argument: &str) -> Option<&'static str> {
    match argument.split_once(':')?.1.trim() {
        "change" => Some("change"),
        "read" => Some("read"),
        "word" => Some("word"),
        "f64" => Some("number"),
        _ => Some("unknown"),
    }
}

/// The texts of a crate in Rattle.
fn texts(name: &str) -> Vec<String> {
    let files = fs::read_dir(root().join("crates").join(name).join("src")).unwrap();
    files.map(|file| fs::read_to_string(file.unwrap().path()).unwrap()).collect()
}

fn of_the_crate() -> Signatures {
    texts("dotterelwire").iter().flat_map(|text| signatures(text, EXPORTED, in_rattle)).collect()
}

fn of_the_header() -> Signatures {
    let header = include_str!("../include/dotterelwire.h");
    let mut found = signatures(header, "\nuint32_t ", in_c);
    found.extend(signatures(header, "\ndouble ", in_c));
    found
}

fn of_ffi() -> Signatures {
    let text = include_str!("../src/ffi.rs");
    let mut found = signatures(text, " as ", in_rust);
    found.extend(signatures(text, "fn ", in_rust));
    found
}

/// Each call of a text with its arguments and clauses, by its name, in whatever layout.
fn promises(text: &str, behind: &str) -> BTreeMap<String, String> {
    let starts = text.match_indices(behind).map(|(at, _)| &text[at + behind.len()..]);
    let called = starts.filter(|rest| rest.starts_with("dw_")).filter_map(|rest| {
        let (name, rest) = rest.split_once('(')?;
        let (promise, _) = rest.split_once("\n{\n")?;
        let words: Vec<&str> = promise.split_whitespace().collect();
        Some((name.to_string(), words.join(" ").replace("( ", "(").replace(", )", ")")))
    });
    called.collect()
}

/// What a function takes as one value, in the words and numbers of its export.
const VALUES: [(&str, &str, &str, &str); 4] = [
    (
        "words: ComponentWords",
        "kind: u64, a: u64, b: u64, c: u64, d: u64, e: u64",
        "words",
        "(five kind a b c d e)",
    ),
    (
        "words: DataWords",
        "kind: u64, a: u64, b: u64, c: u64",
        "words",
        "(record { kind = kind; a = a; b = b; c = c })",
    ),
    (
        "inputs: Option<Inputs>",
        "given: u64, first: &[u8], second: &[u8], third: &[u8]",
        "(inputs_of inputs.entry)",
        "(inputsGiven given first.now second.now third.now)",
    ),
    ("p: Vec3", "x: u64, y: u64, z: u64", "p", "(point_of (number x) (number y) (number z))"),
];

/// A function's arguments and clauses, with each such value made of what C hands over.
fn as_c_hands_it_over(promise: &str) -> String {
    let (arguments, clauses) = promise.split_once(" ensures {").unwrap();
    let mut arguments = arguments.to_string();
    let mut clauses = format!(" ensures {{{clauses}");
    for (argument, words, name, value) in VALUES {
        if arguments.contains(argument) {
            arguments = arguments.replace(argument, words);
            for end in [" ", ")"] {
                clauses = clauses.replace(&format!(" {name}{end}"), &format!(" {value}{end}"));
            }
        }
    }
    arguments + &clauses
}

#[test]
fn the_same_arguments_everywhere() {
    let exported = of_the_crate();
    assert_eq!(exported.len(), 25);
    assert_eq!(of_the_header(), exported);
    assert_eq!(of_ffi(), exported);
}

#[test]
fn an_export_has_the_clauses_of_its_function() {
    let of = |names: &[&str], behind: &str| -> BTreeMap<String, String> {
        names.iter().flat_map(|name| texts(name)).flat_map(|text| promises(&text, behind)).collect()
    };
    let mut functions = of(&CRATES, "pub fn ");
    assert_eq!(functions.len(), 25);
    for promise in functions.values_mut() {
        *promise = as_c_hands_it_over(promise);
    }
    assert!(functions.values().all(|promise| promise.contains("ensures {")));
    assert_eq!(of(&["dotterelwire"], EXPORTED), functions);
}
