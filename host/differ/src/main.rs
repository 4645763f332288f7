//! Runs two programs that speak the line protocol against each other, and says where they differ (README.md).
mod compare;
mod exhaustive;
mod faults;
mod generate;
mod graph;
mod judge;
mod model;
mod numbers;
mod parameter;
mod random;
mod record;
mod reference;
mod shrink;
mod smallest;
#[cfg(test)]
mod truck;
mod words;

use compare::{Compared, Counts, Pair, Program, Script};
use faults::FAULTS;
use generate::Generator;
use std::io;

/// Commands handed to the programs at a time.
const BATCH: usize = 4000;
/// A fault that is not found within so many commands counts as not found.
const PATIENCE: usize = 400_000;

fn is_unexplained(c: &Compared) -> bool {
    c.unexplained.is_some()
}

fn is_undocumented(c: &Compared) -> bool {
    c.undocumented.is_some()
}

fn program(words: &str) -> Program {
    Program(words.split_whitespace().map(str::to_string).collect())
}

fn reference(fault: &str) -> io::Result<Program> {
    let own = std::env::current_exe()?.to_string_lossy().to_string();
    Ok(Program(vec![own, "reference".to_string(), fault.to_string()]))
}

/// Scripts of about so many commands in all.
fn batch(generator: &mut Generator, commands: usize) -> Vec<Script> {
    let mut scripts: Vec<Script> = vec![];
    while scripts.iter().map(Vec::len).sum::<usize>() < commands {
        scripts.push(generator.script());
    }
    scripts
}

/// Prints a script that is not explained, made short.
fn report(pair: &Pair, script: Script, find: shrink::Find) -> io::Result<()> {
    let script = shrink::shrink(pair, script, find)?;
    let compared = pair.compare(&[script.clone()])?;
    println!("NOT EXPLAINED, after `new`:");
    for (line, c) in script.iter().zip(&compared[0]) {
        println!("  {line}\n    ours {}\n    other {}", c.ours.answer, c.rust.answer);
    }
    if let Some(c) = compared[0].last() {
        println!("    {:?} {:?}", c.unexplained, c.undocumented);
        println!("    ours then {}\n    other then {}", c.ours.dump, c.rust.dump);
    }
    Ok(())
}

/// Counts what a batch showed, and reports its first find.
fn take(pair: &Pair, scripts: Vec<Script>, counts: &mut Counts) -> io::Result<usize> {
    let compared = pair.compare(&scripts)?;
    let mut finds = 0;
    let find: shrink::Find = |c| is_unexplained(c) || is_undocumented(c);
    for (script, results) in scripts.into_iter().zip(&compared) {
        for (line, c) in script.iter().zip(results) {
            counts.add(line, c);
        }
        if results.iter().any(find) {
            finds += 1;
            if finds == 1 {
                report(pair, script, find)?;
            }
        }
    }
    Ok(finds)
}

fn random(pair: &Pair, seed: u64, count: usize) -> io::Result<usize> {
    let mut generator = Generator::new(seed, pair.plain);
    let mut counts = Counts::default();
    let mut finds = 0;
    while counts.commands < count && finds < 5 {
        finds += take(pair, batch(&mut generator, BATCH), &mut counts)?;
    }
    counts.print(pair.plain);
    println!("seed {seed}: {finds} scripts with something unexplained");
    Ok(finds)
}

fn exhaustive(pair: &Pair) -> io::Result<usize> {
    let commands = exhaustive::commands();
    let mut counts = Counts::default();
    let (mut models, mut finds) = (0, 0);
    let mut all = exhaustive::models().peekable();
    while all.peek().is_some() && finds < 5 {
        let some: Vec<String> = all.by_ref().take(BATCH / commands.len()).collect();
        models += some.len();
        let scripts = some.iter().map(|r| exhaustive::script(r, &commands)).collect();
        finds += take(pair, scripts, &mut counts)?;
    }
    counts.print(pair.plain);
    println!("{models} models, {} commands each: {finds} models with something unexplained", commands.len());
    Ok(finds)
}

/// After how many commands the first find came, with its script.
fn search(pair: &Pair, seed: u64, find: shrink::Find) -> io::Result<Option<(usize, Script)>> {
    let mut generator = Generator::new(seed, pair.plain);
    let mut commands = 0;
    while commands < PATIENCE {
        let size = if commands == 0 { 400 } else { BATCH };
        let scripts = batch(&mut generator, size);
        let compared = pair.compare(&scripts)?;
        for (script, results) in scripts.into_iter().zip(compared) {
            if let Some(at) = results.iter().position(find) {
                return Ok(Some((commands + at + 1, script)));
            }
            commands += script.len();
        }
    }
    Ok(None)
}

/// Each wrong program in our place, against the Rust.
fn try_faults(rust: &Program, seed: u64, only: Option<&str>) -> io::Result<usize> {
    let mut missed = 0;
    for (fault, text) in FAULTS.iter().filter(|f| only.is_none_or(|o| o == f.0)) {
        let pair = Pair { ours: reference(fault)?, rust: rust.clone(), plain: false };
        match search(&pair, seed, is_unexplained)? {
            None => {
                missed += 1;
                println!("{fault} | {text} | not found in {PATIENCE} commands |");
            }
            Some((after, script)) => {
                let script = shrink::shrink(&pair, script, is_unexplained)?;
                println!("{fault} | {text} | {after} | {}", script.join(", "));
            }
        }
    }
    println!("{} wrong programs, {missed} not found", FAULTS.len());
    Ok(missed)
}

/// The smallest script of each class, with both answers to its last command: the class must be the one that it shows.
fn show_smallest(pair: &Pair) -> io::Result<usize> {
    let mut wrong = 0;
    for (class, script) in smallest::all() {
        let compared = pair.compare(&[script.clone()])?;
        let Some(c) = compared[0].last() else {
            continue;
        };
        let shown = c.class == Some(class) && c.unexplained.is_none() && c.undocumented.is_none();
        wrong += usize::from(!shown);
        let lines = if script.len() > 4 || script[0].len() > 400 {
            vec![format!("({} commands)", script.len() - 1), script[script.len() - 1].clone()]
        } else {
            script
        };
        println!(
            "{class}: {}\n  the Rust: {} | ours: {}{}",
            lines.join(", "),
            c.rust.answer,
            c.ours.answer,
            if shown { "" } else { " | NOT SHOWN" }
        );
        if c.ours.dump != c.rust.dump && c.ours.dump.len() + c.rust.dump.len() < 800 {
            println!("  the Rust then: {}\n  ours then: {}", c.rust.dump, c.ours.dump);
        }
    }
    Ok(wrong)
}

fn usage() -> io::Result<usize> {
    eprintln!("differ random|plain [SEED [COUNT]] | exhaustive | faults [SEED [NAME]] | smallest | record [SEED] | reference [FAULT]; OURS and RUST name the programs");
    Ok(2)
}

fn main() -> io::Result<()> {
    let args: Vec<String> = std::env::args().skip(1).collect();
    let word = |i: usize| args.get(i).map(String::as_str);
    let number = |i: usize, otherwise: u64| word(i).and_then(|w| w.parse().ok()).unwrap_or(otherwise);
    let named = |name: &str| program(&std::env::var(name).unwrap_or_default());
    let pair = || Pair { ours: named("OURS"), rust: named("RUST"), plain: false };
    let (seed, count) = (number(1, 1), number(2, 1_000_000) as usize);
    let finds = match word(0) {
        Some("random") => random(&pair(), seed, count)?,
        Some("plain") => random(&Pair { rust: reference("")?, plain: true, ..pair() }, seed, count)?,
        Some("exhaustive") => exhaustive(&pair())?,
        Some("faults") => try_faults(&named("RUST"), seed, word(2))?,
        Some("smallest") => show_smallest(&pair())?,
        Some("record") => record::record(&pair(), seed)?,
        Some("reference") => match faults::named(word(1).unwrap_or("")) {
            Some(fault) => reference::run(fault).map(|()| 0)?,
            None => usage()?,
        },
        _ => usage()?,
    };
    std::process::exit(i32::from(finds > 0));
}
