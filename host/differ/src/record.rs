//! The list that crate `replay` runs: commands with the oracle's answers, and ours where a class makes it another.
use crate::compare::{kind_of_answer, Compared, Pair, Script};
use crate::generate::Generator;
use crate::judge::{self, Rust};
use crate::model::Model;
use crate::smallest;
use crate::words::{command, Command, KINDS};
use std::collections::BTreeMap;
use std::io;

/// How often the list holds each cell (command, answer, class) and each kind under each call, if the runs bring it that often.
const OFTEN: usize = 2;
/// Scripts that are looked through for cells.
const SCRIPTS: usize = 2000;
/// The list has no fewer answers than this.
const ANSWERS: usize = 3600;
/// Longer records are left out of the list, but for the smallest scripts.
const LONGEST: usize = 500;

/// Every kind added by every call that takes it, wired, asked at two points, and given each of its parameters.
fn kinds() -> Vec<Script> {
    let numbers = ["3ff0000000000000", "bfe0000000000000", "4000000000000000", "4008000000000000", "3fd3333333333333"];
    let point = format!("{} {} {}", numbers[3], numbers[1], numbers[4]);
    let one = |kind: &(&str, usize, usize)| {
        let words = [&[kind.0], &numbers[..kind.1]].concat().join(" ");
        let inputs = ["inputs", &kind.2.to_string(), "61", "62", "63"][..2 + kind.2].join(" ");
        let mut script: Script = (0..3).map(|i| format!("add_constant 6{} {}", i + 1, numbers[i])).collect();
        script.push(format!("add_component 78 {words}"));
        script.push(format!("add_component 78 {words}"));
        script.extend((0..kind.2).map(|i| format!("add_input 78 6{} {i}", i + 1)));
        match (kind.0, kind.2) {
            ("constant", _) => script.push(format!("add_constant 79 {}", numbers[1])),
            (_, 0) => script.push(format!("add_function 79 {words}")),
            _ => {
                script.extend([format!("add_operation 79 {words} {inputs}"), format!("add_operation 7a {words} none")])
            }
        }
        let names = crate::parameter::names(kind.0).iter().map(|n| crate::words::tag_word(n.0.as_bytes()));
        script.extend(["78", "79"].map(|t| format!("evaluate_at {t} {point}")));
        for name in names.chain(["56616c7565".to_string()]) {
            script.push(format!("set_parameter 78 {name} value {}", numbers[4]));
            script.push(format!("set_parameter 78 {name} vec3 {point}"));
            script.push(format!("evaluate_at 78 {point}"));
        }
        script.push("compile 78".to_string());
        script
    };
    KINDS.iter().map(one).collect()
}

/// Whether the oracle could answer otherwise in another run: its tables are hash maps with random keys.
fn is_open(before: &Model, c: &Command, compared: &Compared) -> bool {
    let asks = matches!(c, Command::Compile(_) | Command::EvaluateAt(..));
    let document = judge::by_document(before, c);
    match (judge::departure(before, Some(c), &document), c) {
        (Some(d), _) => match d.rust {
            Rust::OneOf(answers) => answers.len() > 1,
            Rust::Free => asks,
            _ => false,
        },
        (None, Command::Compile(_)) => compared.ours.answer != compared.rust.answer || !is_only_order(before, c),
        (None, _) => false,
    }
}

/// Whether the reach of a compile has one order only: each tag is needed by the next.
fn is_only_order(m: &Model, c: &Command) -> bool {
    let Command::Compile(t) = c else { return true };
    let order = crate::graph::order(m, t).unwrap_or_default();
    order.windows(2).all(|w| m.list(&w[1]).contains(&Some(w[0].clone())))
}

#[derive(Default)]
struct List {
    lines: Vec<String>,
    cells: BTreeMap<String, usize>,
    same: usize,
    told: usize,
    left_out: usize,
}

/// What a command of the list stands for: call, answer and class, and for an adding the kind.
fn cells(line: &str, c: &Compared) -> Vec<String> {
    let words: Vec<&str> = line.split(' ').collect();
    let answer = kind_of_answer(&c.ours.answer);
    let mut cells = vec![format!("{} / {answer} / {}", words[0], c.class.unwrap_or("same"))];
    if words[0] != "add_constant" && words[0].starts_with("add_") && words[0] != "add_input" {
        cells.push(format!("{} {}", words[0], words[2]));
    }
    cells
}

impl List {
    fn hold(&mut self, line: &str, class: Option<&str>, ours: &str, rust: &str) {
        self.lines.push(line.to_string());
        self.lines.push(format!("= {rust}"));
        if ours == rust {
            self.same += 1;
        } else {
            self.told += 1;
            self.lines.push(format!("! {} {ours}", class.unwrap_or("none")));
        }
    }

    /// Whether another list has a cell that this one has too seldom.
    fn lacks(&self, other: &List) -> bool {
        other.cells.keys().any(|cell| self.cells.get(cell).copied().unwrap_or(0) < OFTEN)
    }

    fn append(&mut self, other: List) {
        self.lines.extend(other.lines);
        for (cell, n) in other.cells {
            *self.cells.entry(cell).or_default() += n;
        }
        self.same += other.same;
        self.told += other.told;
        self.left_out += other.left_out;
    }

    /// The list of one script: every answer that is fixed, and the model after each edit that was taken or that parts the two.
    fn of(script: &Script, compared: &[Compared], longest: usize) -> List {
        let mut list = List::default();
        list.hold("new", None, "ok", "ok");
        let mut before = Model::new("");
        for (line, c) in script.iter().zip(compared) {
            if let Some(known) = command(line) {
                list.command(line, &known, &before, c, longest);
            }
            before = crate::compare::model_of(&c.ours.dump);
        }
        list
    }

    fn command(&mut self, line: &str, known: &Command, before: &Model, c: &Compared, longest: usize) {
        if is_open(before, known, c) {
            self.left_out += 1;
            return;
        }
        self.hold(line, c.class, &c.ours.answer, &c.rust.answer);
        for cell in cells(line, c) {
            *self.cells.entry(cell).or_default() += 1;
        }
        let changed = c.ours.dump != judge::dump(before) || c.ours.dump != c.rust.dump;
        if changed && c.ours.dump.len().max(c.rust.dump.len()) < longest {
            self.hold("dump", c.class, &c.ours.dump, &c.rust.dump);
        }
    }
}

/// Prints the list; says on standard error what is in it, and in its last line what crate `replay` has to report.
pub fn record(pair: &Pair, seed: u64) -> io::Result<usize> {
    let mut list = List::default();
    let first: Vec<Script> = smallest::all().into_iter().map(|s| s.1).chain(kinds()).collect();
    let mut finds = 0;
    for (script, compared) in first.iter().zip(pair.compare(&first)?) {
        finds += compared.iter().filter(|c| c.unexplained.is_some()).count();
        list.append(List::of(script, &compared, usize::MAX));
    }
    let mut generator = Generator::new(seed, false);
    let mut looked = 0;
    while looked < SCRIPTS || list.same + list.told < ANSWERS {
        let scripts: Vec<Script> = (0..100).map(|_| generator.script()).collect();
        looked += scripts.len();
        for (script, compared) in scripts.iter().zip(pair.compare(&scripts)?) {
            finds += compared.iter().filter(|c| c.unexplained.is_some()).count();
            let part = List::of(script, &compared, LONGEST);
            if list.lacks(&part) || looked > SCRIPTS && list.same + list.told < ANSWERS {
                list.append(part);
            }
        }
    }
    println!("{}", list.lines.join("\n"));
    for (cell, n) in &list.cells {
        eprintln!("{n:>6} {cell}");
    }
    eprintln!("{} answers left out, since a hash map decides them; {finds} unexplained", list.left_out);
    let (same, told) = (list.same, list.told);
    eprintln!(
        "{} answers of the Rust: {same} the same, {told} differ as docs/DIFFERENCES.md says, 0 unexplained",
        same + told
    );
    Ok(finds)
}
