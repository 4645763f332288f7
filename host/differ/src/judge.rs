//! Where the Rust departs, as docs/DIFFERENCES.md says: each class with the condition under which it arises, read off the
//! model ahead of the command, and what both must then answer.
use crate::graph::{self, reach, sorted};
use crate::model::Model;
use crate::numbers::Zeros;
use crate::reference;
use crate::words::{bits_word, tag_word, Command, Tag};
use std::collections::{BTreeMap, BTreeSet};

/// The classes, by the names that docs/DIFFERENCES.md gives them.
pub const CLASSES: [&str; 18] = [
    "index-at-length",
    "rename-none",
    "walk-hangs",
    "walk-long",
    "cycle-no-source",
    "cycle-names-source",
    "constant-no-value",
    "unfit-silent",
    "too-near-silent",
    "zero-signs",
    "12-or-13",
    "least-tag",
    "size-1",
    "size-15",
    "size-16",
    "size-17",
    "record-7",
    "kind-4",
];

/// What a program answered to a command, and its model after it.
#[derive(Clone, PartialEq, Debug)]
pub struct Answered {
    pub answer: String,
    pub dump: String,
}

/// What the Rust must do in a class.
pub enum Rust {
    /// This answer, and a model as before it.
    Unchanged(String),
    /// One of these answers, and a model as before it.
    OneOf(Vec<String>),
    /// This answer, and this model.
    Becomes(Answered),
    /// It can't be compared.
    Free,
}

pub struct Departure {
    pub class: &'static str,
    pub rust: Rust,
    /// The two models are different after it.
    pub parts: bool,
}

fn unchanged(class: &'static str, answer: &str) -> Option<Departure> {
    let rust = Rust::Unchanged(answer.to_string());
    Some(Departure { class, rust, parts: false })
}

pub fn dump(m: &Model) -> String {
    if m.broken {
        return "refused 7 . 0".to_string();
    }
    format!("ok {}", m.record())
}

/// Document 01's answer to a command, and its model after it.
pub fn by_document(before: &Model, c: &Command) -> Answered {
    let mut m = before.clone();
    let answer = reference::apply(&mut m, c);
    Answered { answer, dump: dump(&m) }
}

/// The tags of a command that 1 looks at.
fn tags_looked_at(c: &Command) -> Vec<&Tag> {
    match c {
        Command::AddConstant(t, _) | Command::AddFunction(t, _) | Command::AddComponent(t, _) => {
            vec![t]
        }
        Command::AddOperation(t, _, given) => [t].into_iter().chain(given.iter().flatten().take(3)).collect(),
        Command::AddInput(t, u, _) | Command::RenameComponent(t, u) => vec![t, u],
        Command::RemoveInput(t, _) | Command::RemoveComponent(t) => vec![t],
        Command::SetParameter(t, _, _) | Command::Compile(t) | Command::EvaluateAt(t, _) => vec![t],
        _ => vec![],
    }
}

/// A call that the Rust's types don't have.
fn is_of_another_kind(c: &Command) -> bool {
    match c {
        Command::AddFunction(_, c) => c.kind != "sphere" && c.kind != "torus",
        Command::AddOperation(_, c, _) => c.inputs() == 0,
        _ => false,
    }
}

/// Past a size the Rust goes on as document 01 without sizes would.
fn past_a_size(class: &'static str, before: &Model, c: &Command) -> Departure {
    let mut m = before.clone();
    m.sizes = false;
    let answer = reference::apply(&mut m, c);
    if matches!(c, Command::RenameComponent(old, _) if old == b"None") && answer.starts_with("ok") {
        return Departure { class, rust: Rust::Free, parts: true };
    }
    let dump = dump(&m);
    Departure { class, rust: Rust::Becomes(Answered { answer, dump }), parts: true }
}

/// Whether the Rust's walk, in which a tag waits as often as it is named, takes more than a million turns (oracle/README.md).
fn walk_is_long(m: &Model, target: &[u8], source: &[u8]) -> bool {
    let mut level: BTreeMap<&[u8], usize> = BTreeMap::from([(source, 1)]);
    let mut turns = 0;
    for _ in 0..=m.lists.len() {
        let stops = |t: &[u8]| t == target || m.gap(t).is_some();
        if level.is_empty() || level.keys().any(|t| stops(t)) {
            return false;
        }
        turns += level.values().sum::<usize>();
        if turns > 1_000_000 {
            return true;
        }
        let mut next = BTreeMap::new();
        for (t, count) in level {
            for input in m.list(t).iter().flatten() {
                *next.entry(input.as_slice()).or_insert(0) += count;
            }
        }
        level = next;
    }
    !level.is_empty()
}

fn has_cycle(m: &Model, reached: &BTreeSet<Tag>) -> bool {
    sorted(m, reached).len() < reached.len()
}

fn wiring(before: &Model, target: &[u8], source: &[u8], i: usize) -> Option<Departure> {
    let present = |t| before.components.contains_key(t);
    if !present(target) || !present(source) || i >= before.list(target).len() || !walk_is_long(before, target, source) {
        return None;
    }
    let endless = before.walk(target, source).is_ok() && has_cycle(before, &reach(before, source));
    let class = if endless { "walk-hangs" } else { "walk-long" };
    let rust = Rust::Unchanged("hang".to_string());
    Some(Departure { class, rust, parts: true })
}

/// What the Rust may answer where its order meets more than one tag without a component or with a gap: any of them that
/// needs none of the others.
fn first_to_fail(m: &Model, reached: &BTreeSet<Tag>) -> Vec<String> {
    let fails = |t: &Tag| !m.components.contains_key(t) || m.gap(t).is_some();
    let first = |t: &&Tag| fails(t) && !reach(m, t).iter().any(|u| u != *t && fails(u));
    let answer = |t: &Tag| match m.gap(t) {
        Some(i) if m.components.contains_key(t) => format!("refused 13 {} {i}", tag_word(t)),
        _ => format!("refused 12 {} 0", tag_word(t)),
    };
    reached.iter().filter(first).map(answer).collect()
}

fn cycle(m: &Model, reached: &BTreeSet<Tag>) -> Option<Departure> {
    let is_source = |t: &&Tag| m.list(t).iter().all(|p| p.is_none());
    let named = |t: &Tag| format!("refused 14 {} 0", tag_word(t));
    let sources: Vec<String> = reached.iter().filter(is_source).map(named).collect();
    if sources.is_empty() {
        return unchanged("cycle-no-source", "panic");
    }
    Some(Departure { class: "cycle-names-source", rust: Rust::OneOf(sources), parts: false })
}

fn compiling(before: &Model, target: &[u8], answer: &str) -> Option<Departure> {
    let reached = reach(before, target);
    if has_cycle(before, &reached) {
        return cycle(before, &reached);
    }
    let may = first_to_fail(before, &reached);
    if may.is_empty() || may == [answer] {
        return None;
    }
    let number = |a: &str| a.split(' ').nth(1).map(str::to_string);
    let class = if may.iter().all(|a| number(a) == number(answer)) { "least-tag" } else { "12-or-13" };
    Some(Departure { class, rust: Rust::OneOf(may), parts: false })
}

fn evaluating(before: &Model, target: &[u8], p: &[f64; 3], answer: &str) -> Option<Departure> {
    match graph::number(before, target, p, Zeros::First) {
        Err(_) => compiling(before, target, answer),
        Ok(x) => {
            let rust = format!("ok {}", bits_word(x));
            if rust == answer {
                None
            } else {
                unchanged("zero-signs", &rust)
            }
        }
    }
}

fn renaming(before: &Model, c: &Command, new: &[u8]) -> Option<Departure> {
    let mut m = before.clone();
    let answer = reference::apply(&mut m, c);
    let after = dump(&m);
    m.fill_gaps(new);
    let dump = dump(&m);
    if !answer.starts_with("ok") || dump == after {
        return None;
    }
    Some(Departure { class: "rename-none", rust: Rust::Becomes(Answered { answer, dump }), parts: true })
}

fn setting(before: &Model, t: &[u8], number: &str) -> Option<Departure> {
    let constant = before.components.get(t).is_some_and(|c| c.kind == "constant");
    match number {
        "4" if constant => unchanged("constant-no-value", "panic"),
        "4" => unchanged("unfit-silent", "ok"),
        "5" => unchanged("too-near-silent", "ok"),
        _ => None,
    }
}

/// The departure that a line on this model brings about, if any; `document` is document 01's answer.
pub fn departure(before: &Model, c: Option<&Command>, document: &Answered) -> Option<Departure> {
    if document.dump.starts_with("refused 7") {
        return Some(Departure { class: "record-7", rust: Rust::Free, parts: true });
    }
    let c = c?;
    if tags_looked_at(c).iter().any(|t| t.len() > 32) {
        let free = is_of_another_kind(c);
        let free = free.then_some(Departure { class: "size-1", rust: Rust::Free, parts: true });
        return free.or_else(|| Some(past_a_size("size-1", before, c)));
    }
    if is_of_another_kind(c) {
        return unchanged("kind-4", "error");
    }
    let number = document.answer.strip_prefix("refused ").and_then(|a| a.split(' ').next()).unwrap_or("");
    match number {
        "15" => return Some(past_a_size("size-15", before, c)),
        "16" => return Some(past_a_size("size-16", before, c)),
        "17" => return Some(past_a_size("size-17", before, c)),
        _ => {}
    }
    match c {
        Command::RemoveInput(t, i) if number == "3" && *i == before.list(t).len() => {
            unchanged("index-at-length", "panic")
        }
        Command::AddInput(t, s, i) => wiring(before, t, s, *i),
        Command::RenameComponent(old, new) if old == b"None" => renaming(before, c, new),
        Command::SetParameter(t, _, _) => setting(before, t, number),
        Command::Compile(t) => compiling(before, t, &document.answer),
        Command::EvaluateAt(t, p) => evaluating(before, t, p, &document.answer),
        _ => None,
    }
}

/// Whether an answer of compile has the common property: each reached tag once, inputs ahead of users, target last, and
/// their count.
pub fn is_order(m: &Model, target: &[u8], answer: &str) -> bool {
    let mut words = answer.split(' ').skip(1);
    let count = words.next().and_then(|w| w.parse::<usize>().ok());
    let tags: Vec<&str> = words.collect();
    let reached = reach(m, target);
    let at: BTreeMap<&str, usize> = tags.iter().enumerate().map(|(i, t)| (*t, i)).collect();
    let position = |t: &[u8]| at.get(tag_word(t).as_str()).copied();
    let ahead = |t: &Tag| m.list(t).iter().flatten().all(|u| position(u) < position(t));
    answer.starts_with("ok ")
        && count == Some(tags.len())
        && tags.len() == reached.len()
        && reached.iter().all(|t| position(t).is_some() && ahead(t))
        && tags.last() == Some(&tag_word(target).as_str())
}

/// Two answers that stand for the same one: orders with the common property, and lines that are no command.
pub fn same(before: &Model, c: Option<&Command>, a: &Answered, b: &Answered) -> bool {
    let answers = match c {
        None => a.answer.starts_with("error") && b.answer.starts_with("error"),
        Some(Command::Compile(t)) if a.answer.starts_with("ok") => {
            is_order(before, t, &a.answer) && is_order(before, t, &b.answer)
        }
        _ => a.answer == b.answer,
    };
    answers && a.dump == b.dump
}

/// Whether the Rust did what its class says.
pub fn rust_is(d: &Departure, before: &Model, rust: &Answered) -> bool {
    let kept = rust.dump == dump(before);
    match &d.rust {
        Rust::Unchanged(a) if a == "error" => rust.answer.starts_with("error") && kept,
        Rust::Unchanged(a) => rust.answer == *a && kept,
        Rust::OneOf(answers) => answers.contains(&rust.answer) && kept,
        Rust::Becomes(b) => rust == b,
        Rust::Free => true,
    }
}
