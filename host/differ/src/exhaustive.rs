//! All models over two tags, with every edit: what each tag has, every list under it, every default.
//!
//! The tags are "a" and "None", so that renaming "None" comes up with every pattern of gaps; renames also go to a third, free tag.
use crate::compare::Script;
use crate::model::Model;
use crate::reference::answer;

const TAGS: [&str; 2] = ["61", "4e6f6e65"];
const FREE: &str = "62";
const ONE: &str = "3ff0000000000000";

/// A kind with its words and its inputs. A function stands in the wires as a constant does.
const KINDS: [(&str, usize); 5] = [
    ("constant 3ff0000000000000", 0),
    ("sphere 0000000000000000 0000000000000000 0000000000000000 3ff0000000000000", 0),
    ("Offset 3ff0000000000000", 1),
    ("Subtract", 2),
    ("VariableLerp", 3),
];

/// Every way to fill so many places.
fn fillings(places: usize, with: &[&str]) -> Vec<String> {
    (0..places).fold(vec![String::new()], |all, _| {
        all.iter().flat_map(|f| with.iter().map(move |w| format!("{f} {w}"))).collect()
    })
}

/// Every list under a tag, of so many places or of any: the words behind the tag; none for no list.
fn lists(count: Option<usize>) -> Vec<Option<String>> {
    let of = |n: usize| fillings(n, &["-", TAGS[0], TAGS[1]]).into_iter().map(move |f| Some(format!("{n}{f}")));
    match count {
        Some(n) => of(n).collect(),
        None => [None].into_iter().chain(of(1)).chain(of(2)).chain(of(3)).collect(),
    }
}

/// Everything that may stand under one tag: a component or none, a list or none. The second tag has a sphere for a constant.
fn holdings(plain: usize) -> Vec<(Option<&'static str>, Option<String>)> {
    let mut all: Vec<_> = lists(None).into_iter().map(|l| (None, l)).collect();
    all.extend(lists(None).into_iter().map(|l| (Some(KINDS[plain].0), l)));
    for (kind, inputs) in &KINDS[2..] {
        all.extend(lists(Some(*inputs)).into_iter().map(|l| (Some(*kind), l)));
    }
    all
}

/// The records of all models.
pub fn models() -> impl Iterator<Item = String> {
    let second = holdings(1);
    holdings(0).into_iter().flat_map(move |a| {
        let second = second.clone();
        second.into_iter().flat_map(move |b| records(&a, &b))
    })
}

type Holding = (Option<&'static str>, Option<String>);

fn records(a: &Holding, b: &Holding) -> Vec<String> {
    let both = [(TAGS[0], a), (TAGS[1], b)];
    let components: Vec<String> = both.iter().filter_map(|(t, h)| h.0.map(|c| format!(" {t} {c}"))).collect();
    let lists: Vec<String> = both.iter().filter_map(|(t, h)| h.1.as_ref().map(|l| format!(" {t} {l}"))).collect();
    let present = both.iter().filter(|(_, h)| h.0.is_some()).map(|(t, _)| *t);
    let record = |default: &str| {
        let counts = (components.len(), lists.len());
        format!("default {default} components {}{} lists {}{}", counts.0, components.concat(), counts.1, lists.concat())
    };
    ["-"].into_iter().chain(present).map(record).collect()
}

/// Every edit with these tags, and what is asked.
pub fn commands() -> Vec<String> {
    let mut all = vec![];
    for t in TAGS {
        all.extend([
            format!("compile {t}"),
            format!("evaluate_at {t} {ONE} {ONE} {ONE}"),
            format!("remove_component {t}"),
        ]);
        all.extend([format!("add_constant {t} {ONE}"), format!("add_function {t} {}", KINDS[1].0)]);
        all.extend(KINDS.map(|k| format!("add_component {t} {}", k.0)));
        for (kind, inputs) in &KINDS[2..] {
            all.push(format!("add_operation {t} {kind} none"));
            all.extend(fillings(*inputs, &TAGS).iter().map(|f| format!("add_operation {t} {kind} inputs {inputs}{f}")));
            all.push(format!("add_operation {t} {kind} inputs 0"));
            all.push(format!("add_operation {t} {kind} inputs 4 {t} {t} {t} {t}"));
        }
        for i in 0..4 {
            all.push(format!("remove_input {t} {i}"));
            all.extend(TAGS.map(|s| format!("add_input {t} {s} {i}")));
        }
        all.extend([TAGS[0], TAGS[1], FREE].map(|new| format!("rename_component {t} {new}")));
        all.push(format!("set_parameter {t} 44697374616e6365 value {ONE}"));
        all.push(format!("set_parameter {t} 526164697573 boolean 1"));
    }
    all
}

/// One model with every command, loaded again after each command that changes it.
pub fn script(record: &str, commands: &[String]) -> Script {
    let load = format!("load {record}");
    let mut m = Model::new("");
    answer(&mut m, &load);
    let mut script = vec![load.clone()];
    for line in commands {
        let mut after = m.clone();
        let changed = answer(&mut after, line).starts_with("ok") && after.record() != m.record();
        script.push(line.clone());
        if changed {
            script.push(load.clone());
        }
    }
    script
}
