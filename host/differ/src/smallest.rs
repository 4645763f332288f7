//! The smallest script of each class of docs/DIFFERENCES.md: its last command shows the departure.
use crate::compare::Script;
use crate::words::tag_word;

const OFFSET: &str = "add_operation 61 Offset 0000000000000000 none";
const GAP: &str = "add_operation 62 Offset 0000000000000000 none";
const LOOP: &str = "add_operation 61 Offset 0000000000000000 inputs 1 61";
const WIRED: &str = "add_operation 61 Offset 0000000000000000 inputs 1 62";
const CONSTANT: &str = "add_constant 61 3ff0000000000000";
const ZERO: &str = "add_constant 61 0000000000000000";
const MINUS_ZERO: &str = "add_constant 62 8000000000000000";
const ASKED: &str = "evaluate_at 63 0000000000000000 0000000000000000 0000000000000000";

/// Those whose lines are short.
const SHORT: &[(&str, &[&str])] = &[
    ("index-at-length", &[OFFSET, "remove_input 61 1"]),
    ("rename-none", &[OFFSET, "add_constant 4e6f6e65 3ff0000000000000", "rename_component 4e6f6e65 62"]),
    ("walk-hangs", &[LOOP, GAP, "add_input 62 61 0"]),
    ("cycle-no-source", &[LOOP, "compile 61"]),
    ("cycle-no-source", &[LOOP, "evaluate_at 61 0000000000000000 0000000000000000 0000000000000000"]),
    ("cycle-names-source", &["add_operation 61 Add inputs 2 61 62", "compile 61"]),
    ("constant-no-value", &[CONSTANT, "set_parameter 61 . boolean 1"]),
    ("unfit-silent", &[OFFSET, "set_parameter 61 . value 3ff0000000000000"]),
    (
        "too-near-silent",
        &[
            "add_operation 61 Remap 0000000000000000 3ff0000000000000 0000000000000000 3ff0000000000000 none",
            "set_parameter 61 46726f6d4d6178 value 3ca0000000000000",
        ],
    ),
    ("zero-signs", &[ZERO, MINUS_ZERO, "add_operation 63 BooleanUnion inputs 2 61 62", ASKED]),
    ("zero-signs", &[ZERO, MINUS_ZERO, "add_operation 63 BooleanIntersection inputs 2 62 61", ASKED]),
    ("zero-signs", &[MINUS_ZERO, "add_operation 63 BooleanDifference inputs 2 62 62", ASKED]),
    ("12-or-13", &[WIRED, GAP, "remove_component 61", "compile 61"]),
    ("least-tag", &[WIRED, "remove_component 61", "compile 61"]),
    ("record-7", &["load default 61 components 0 lists 0", "compile 61"]),
    ("kind-4", &["add_function 61 Add"]),
    ("kind-4", &["add_operation 61 constant 3ff0000000000000 none"]),
];

fn named(letter: char, i: usize) -> String {
    tag_word(format!("{letter}{i}").as_bytes())
}

fn constant(t: String) -> String {
    format!("add_constant {t} 3ff0000000000000")
}

/// 64 constants, and one more.
fn full() -> Script {
    (0..65).map(|i| constant(named('c', i))).collect()
}

/// 128 lists, and one more.
fn full_lists() -> Script {
    let lists: Vec<String> = (0..128).map(|i| format!("{} 1 -", named('l', i))).collect();
    let load = format!("load default - components 0 lists 128 {}", lists.join(" "));
    vec![load, OFFSET.to_string()]
}

/// 19 operations, each wired twice to the one before, and the last to another.
fn doubled() -> Script {
    let before = |i: usize| named('k', i - 1);
    let operation = |i: usize| format!("add_operation {} Add inputs 2 {} {}", named('k', i), before(i), before(i));
    let last = [OFFSET.to_string(), format!("add_input 61 {} 0", named('k', 19))];
    [constant(named('k', 0))].into_iter().chain((1..20).map(operation)).chain(last).collect()
}

pub fn all() -> Vec<(&'static str, Script)> {
    let long = |n: usize| tag_word(&vec![b'x'; n]);
    let numbered = format!("add_component {} constant 3ff0000000000000", long(31));
    let computed = [
        ("walk-long", doubled()),
        ("size-1", vec![constant(long(33))]),
        ("size-15", full()),
        ("size-16", full_lists()),
        ("size-17", vec![constant(long(31)), numbered]),
    ];
    let short = SHORT.iter().map(|(class, script)| (*class, script.iter().map(|l| l.to_string()).collect()));
    short.chain(computed).collect()
}
