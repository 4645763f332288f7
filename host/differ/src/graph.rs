//! Reach, order and number: compile and evaluate_at of document 01.
use crate::model::{Answer, Model, Refusal};
use crate::numbers::{compute, Zeros};
use crate::words::{bits_word, tag_word, Tag};
use std::collections::{BTreeMap, BTreeSet};

/// The tags in the places of a list, as they stand; none of them twice where `once` is set.
fn inputs(m: &Model, t: &[u8], once: bool) -> Vec<Tag> {
    let mut tags: Vec<Tag> = m.list(t).iter().flatten().cloned().collect();
    if once {
        tags.sort();
        tags.dedup();
    }
    tags
}

/// The target, and every tag assigned in the list of a reached tag.
pub fn reach(m: &Model, target: &[u8]) -> BTreeSet<Tag> {
    let mut reached = BTreeSet::from([target.to_vec()]);
    let mut waiting = vec![target.to_vec()];
    while let Some(t) = waiting.pop() {
        let operation = m.components.get(&t).is_some_and(|c| c.inputs() > 0);
        if m.wrong("leftover-not-reached") && !operation {
            continue;
        }
        for input in m.list(&t).iter().flatten() {
            if reached.insert(input.clone()) {
                waiting.push(input.clone());
            }
        }
    }
    reached
}

/// The reached tags, inputs ahead of users, as far as no cycle stands in the way: counts of waiting wires, least ready tag first.
pub fn sorted(m: &Model, reached: &BTreeSet<Tag>) -> Vec<Tag> {
    let (counted_once, released_once) = (m.wrong("released-twice"), m.wrong("released-once"));
    let mut waiting: BTreeMap<Tag, isize> = BTreeMap::new();
    let mut users: BTreeMap<Tag, Vec<Tag>> = BTreeMap::new();
    for t in reached {
        waiting.insert(t.clone(), inputs(m, t, counted_once).len() as isize);
        for input in inputs(m, t, released_once) {
            users.entry(input).or_default().push(t.clone());
        }
    }
    let mut ready: BTreeSet<Tag> = reached.iter().filter(|t| waiting[*t] == 0).cloned().collect();
    let mut order = vec![];
    while let Some(t) = ready.pop_first() {
        for user in users.get(&t).into_iter().flatten() {
            let Some(wires) = waiting.get_mut(user) else {
                continue;
            };
            *wires -= 1;
            if *wires == 0 {
                ready.insert(user.clone());
            }
        }
        order.push(t);
    }
    order
}

fn least<'a>(m: &Model, mut tags: impl Iterator<Item = &'a Tag> + Clone) -> Option<&'a Tag> {
    match m.fault {
        "greatest-tag" => tags.last(),
        "shortest-tag" => tags.min_by_key(|t| (t.len(), *t)),
        _ => tags.next(),
    }
}

fn check_missing(m: &Model, reached: &BTreeSet<Tag>) -> Result<(), Refusal> {
    let absent = reached.iter().filter(|t| !m.components.contains_key(*t));
    least(m, absent).map_or(Ok(()), |t| Err(Refusal(12, t.clone(), 0)))
}

fn check_gaps(m: &Model, reached: &BTreeSet<Tag>) -> Result<(), Refusal> {
    if m.wrong("gap-as-0") {
        return Ok(());
    }
    let with_gap = reached.iter().filter(|t| m.gap(t).is_some());
    let Some(t) = least(m, with_gap) else {
        return Ok(());
    };
    let at = if m.wrong("highest-gap") { m.list(t).iter().rposition(|p| p.is_none()) } else { m.gap(t) };
    Err(Refusal(13, t.clone(), at.unwrap_or(0)))
}

/// The order of a target, or the refusal: 1, 14, 12, 13.
pub fn order(m: &Model, target: &[u8]) -> Result<Vec<Tag>, Refusal> {
    if m.too_long(target) {
        return Err(Refusal(1, vec![], 0));
    }
    let reached = reach(m, target);
    if m.wrong("12-before-14") {
        check_missing(m, &reached)?;
    }
    let mut order = sorted(m, &reached);
    let full = m.wrong("says-full") && reached.len() > 3;
    if order.len() < reached.len() || m.wrong("compile-refuses-all") || full {
        return Err(Refusal(14, target.to_vec(), 0));
    }
    if m.wrong("13-before-12") {
        check_gaps(m, &reached)?;
    }
    check_missing(m, &reached)?;
    check_gaps(m, &reached)?;
    if m.wrong("order-backwards") {
        order.reverse();
    }
    Ok(order)
}

pub fn compile(m: &Model, target: &[u8]) -> Answer {
    let order = order(m, target)?;
    let count = order.len() + usize::from(m.wrong("count-invented") && order.len() > 1);
    let words = [count.to_string()].into_iter().chain(order.iter().map(|t| tag_word(t)));
    Ok(format!("ok {}", words.collect::<Vec<_>>().join(" ")))
}

/// The form's number, tag by tag along the order.
pub fn number(m: &Model, target: &[u8], p: &[f64; 3], zeros: Zeros) -> Result<f64, Refusal> {
    let mut numbers: BTreeMap<Tag, f64> = BTreeMap::new();
    for t in order(m, target)? {
        let read = |p: &Option<Tag>| p.as_ref().and_then(|u| numbers.get(u)).copied().unwrap_or(0.0);
        let mut x: Vec<f64> = m.list(&t).iter().map(read).collect();
        if m.wrong("inputs-sorted") {
            x.sort_by(f64::total_cmp);
        }
        let given = !x.is_empty();
        x.resize(3, 0.0);
        let component = &m.components[&t];
        let from_list = m.wrong("constant-reads-list") && component.kind == "constant" && given;
        let value = if from_list { x[0] } else { compute(component, p, &x, zeros, m.fault) };
        numbers.insert(t, value);
    }
    let fixed = m.wrong("one-number");
    Ok(if fixed { 0.0 } else { numbers[target] })
}

pub fn evaluate_at(m: &Model, target: &[u8], p: &[f64; 3]) -> Answer {
    let x = number(m, target, p, Zeros::Signed)?;
    Ok(format!("ok {}", bits_word(x)))
}
