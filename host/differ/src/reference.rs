//! The reference behind the line protocol: a line run on the model, and its answer.
use crate::graph;
use crate::model::{Answer, Model, Refusal};
use crate::numbers::operator;
use crate::words::{bits_word, command, Command};
use std::io::{self, BufRead, Write};

/// The edit of a command, made on the model; None where it is no edit.
fn edit(m: &mut Model, c: &Command) -> Option<Answer> {
    Some(match c {
        Command::AddConstant(t, c) => m.add_plain(t, c.clone(), true),
        Command::AddFunction(t, c) => {
            let fits = c.kind == "sphere" || c.kind == "torus";
            m.add_plain(t, c.clone(), fits)
        }
        Command::AddOperation(t, c, given) => m.add_operation(t, c.clone(), given.clone()),
        Command::AddComponent(t, c) => m.add_component(t, c.clone()),
        Command::AddInput(t, s, i) => m.add_input(t, s, *i),
        Command::RemoveInput(t, i) => m.remove_input(t, *i),
        Command::RemoveComponent(t) => m.remove_component(t),
        Command::RenameComponent(old, new) => m.rename_component(old, new),
        Command::SetParameter(t, name, data) => m.set_parameter(t, name, data),
        _ => return None,
    })
}

/// Whether an edit is answered and not made, by one of the faults.
fn is_faked(m: &Model) -> bool {
    m.wrong("edits-change-nothing") || m.wrong("second-edit-faked") && m.edits > 0
}

fn edited(m: &mut Model, c: &Command) -> Option<Answer> {
    if !is_faked(m) {
        let answer = edit(m, c)?;
        m.edits += usize::from(answer.is_ok());
        return Some(answer);
    }
    let mut other = m.clone();
    edit(&mut other, c)
}

fn asked(m: &mut Model, c: &Command) -> Answer {
    if m.broken {
        return Err(Refusal(7, vec![], 0));
    }
    match c {
        Command::Compile(t) => graph::compile(m, t),
        Command::EvaluateAt(t, p) => graph::evaluate_at(m, t, p),
        Command::Dump => Ok(format!("ok {}", m.record())),
        _ => edited(m, c).unwrap_or(Ok("ok".to_string())),
    }
}

/// What document 01 answers to a command.
pub fn apply(m: &mut Model, c: &Command) -> String {
    match c {
        Command::New => {
            *m = Model::new(m.fault);
            "ok".to_string()
        }
        Command::Load(r) => {
            m.load(r);
            "ok".to_string()
        }
        Command::Vec3(name, n) => {
            let words: Vec<String> = operator(name, n).into_iter().map(bits_word).collect();
            format!("ok {}", words.join(" "))
        }
        _ => asked(m, c).unwrap_or_else(|r| r.words()),
    }
}

pub fn answer(m: &mut Model, line: &str) -> String {
    command(line).map_or("error no command".to_string(), |c| apply(m, &c))
}

/// Answers standard input, with a fault or (the empty one) without.
pub fn run(fault: &'static str) -> io::Result<()> {
    let mut output = io::BufWriter::new(io::stdout().lock());
    let mut m = Model::new(fault);
    for line in io::stdin().lock().lines() {
        let line = line?;
        if !line.is_empty() && !line.starts_with('#') {
            writeln!(output, "{}", answer(&mut m, &line))?;
        }
    }
    output.flush()
}
