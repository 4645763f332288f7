//! A script made shorter and plainer, as long as the two programs still disagree on it.
use crate::compare::{Compared, Pair, Script};
use crate::model::Model;
use crate::words::{command, Command};
use std::io;

/// What counts as a find.
pub type Find = fn(&Compared) -> bool;

const ZERO: &str = "0000000000000000";
const ONE: &str = "3ff0000000000000";
/// Longer scripts are not made plainer.
const SHORT: usize = 20;

/// The script up to its first find.
fn cut(script: &[String], compared: &[Compared], find: Find) -> Option<Script> {
    let at = compared.iter().position(find)?;
    Some(script[..=at].to_vec())
}

/// The first of these scripts that still has a find, cut there.
fn first(pair: &Pair, scripts: Vec<Script>, find: Find) -> io::Result<Option<Script>> {
    let all = pair.compare(&scripts)?;
    let mut found = scripts.iter().zip(&all).filter_map(|(s, c)| cut(s, c, find));
    Ok(found.next())
}

fn without(script: &[String], at: usize, count: usize) -> Script {
    let end = (at + count).min(script.len());
    [&script[..at], &script[end..]].concat()
}

/// Leaves out parts, half of the script at first and one command at last, all places of a size tried in one run.
fn shorter(pair: &Pair, mut script: Script, find: Find) -> io::Result<Script> {
    let mut size = script.len().div_ceil(2);
    while size > 0 {
        let places = (0..script.len()).step_by(size).rev();
        let parts = places.map(|at| without(&script, at, size)).collect();
        match first(pair, parts, find)? {
            Some(found) => script = found,
            None if size == 1 => break,
            None => size = size.div_ceil(2),
        }
        size = size.min(script.len());
    }
    Ok(script)
}

/// A line with one of its numbers 0 or 1.
fn plainer_numbers(line: &str) -> Vec<String> {
    let words: Vec<&str> = line.split(' ').collect();
    let is_number = |w: &str| w.len() == 16 && w != ZERO && w != ONE && w.bytes().all(|b| b.is_ascii_hexdigit());
    let with = |at: usize, number| [&words[..at], &[number], &words[at + 1..]].concat().join(" ");
    let places: Vec<usize> = (0..words.len()).filter(|&i| is_number(words[i])).collect();
    places.iter().flat_map(|&at| [with(at, ZERO), with(at, ONE)]).collect()
}

/// A `load` with one component or list fewer.
fn plainer_records(line: &str) -> Vec<String> {
    let Some(Command::Load(record)) = command(line) else { return vec![] };
    let mut m = Model::new("");
    m.load(&record);
    let mut all = vec![];
    for t in m.components.keys() {
        let mut fewer = m.clone();
        fewer.components.remove(t);
        fewer.default = fewer.default.filter(|d| d != t);
        all.push(format!("load {}", fewer.record()));
    }
    for t in m.lists.keys() {
        let mut fewer = m.clone();
        fewer.lists.remove(t);
        all.push(format!("load {}", fewer.record()));
    }
    all
}

/// Plain numbers and small records, one change at a time.
fn plainer(pair: &Pair, mut script: Script, find: Find) -> io::Result<Script> {
    while script.len() <= SHORT {
        let changed = |i: usize, line: String| [&script[..i], &[line], &script[i + 1..]].concat();
        let of_line = |i: usize| [plainer_records(&script[i]), plainer_numbers(&script[i])].concat();
        let all = (0..script.len()).flat_map(|i| of_line(i).into_iter().map(move |line| (i, line)));
        let scripts = all.map(|(i, line)| changed(i, line)).collect();
        match first(pair, scripts, find)? {
            Some(found) => script = found,
            None => break,
        }
    }
    Ok(script)
}

pub fn shrink(pair: &Pair, script: Script, find: Find) -> io::Result<Script> {
    let script = first(pair, vec![script.clone()], find)?.unwrap_or(script);
    let script = shorter(pair, script, find)?;
    let script = plainer(pair, script, find)?;
    shorter(pair, script, find)
}
