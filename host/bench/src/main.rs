//! This and the Rust in one run: the root and the distances, each edit, compile and evaluate_at.
//! Each time is the best of many rounds. What is compared must also answer alike, else the run ends with 1.
mod distances;
mod form;
mod ours;
mod theirs;

use form::{form, shape, Form, OFFSET};
use std::hint::black_box;
use std::time::Instant;

const SIZES: [usize; 3] = [5, 20, 60];
const ROUNDS: usize = 3000;
const BATCH: usize = 64;

fn row(name: &str, n: usize, ours: f64, theirs: f64) {
    println!("| {name} | {n} | {ours:.0} | {theirs:.0} | {:.2} |", ours / theirs);
}

/// ns of one call of each side, each on a form of its own, which is made outside the time.
fn edit(name: &str, n: usize, mine: fn(&mut Form) -> bool, other: fn(&mut Form) -> bool) {
    let whole = form(n);
    let (mut best, mut rival) = (f64::MAX, f64::MAX);
    for round in 0..ROUNDS {
        let mut f = Form { ours: whole.ours.clone(), theirs: theirs::Theirs::new(), last: whole.last.clone(), inner: whole.inner.clone() };
        best = best.min(once(&mut f, mine));
        if round % 10 == 0 {
            rival = rival.min(once(&mut form(n), other));
        }
    }
    row(name, n, best, rival);
}

fn once(f: &mut Form, call: fn(&mut Form) -> bool) -> f64 {
    let start = Instant::now();
    let taken = black_box(call(black_box(f)));
    let ns = start.elapsed().as_nanos() as f64;
    assert!(taken);
    ns
}

/// ns of one call, of many in a row on one form.
fn ask(mut call: impl FnMut(usize) -> f64) -> f64 {
    let mut best = f64::MAX;
    for _ in 0..ROUNDS / 4 {
        let start = Instant::now();
        (0..BATCH).for_each(|i| {
            black_box(call(i));
        });
        best = best.min(start.elapsed().as_nanos() as f64 / BATCH as f64);
    }
    best
}

fn point(i: usize) -> [f64; 3] {
    let at = i as f64;
    [at * 0.37 - 9.0, 4.0 - at * 0.21, at * 0.11 - 2.0]
}

fn asking(n: usize) {
    let Form { mut ours, theirs, last, .. } = form(n);
    for i in 0..1000 {
        assert_eq!(ours.evaluate_at(&last, point(i)), 0);
        let (a, b) = (ours.number(), theirs.evaluate_at(&last, point(i)).unwrap());
        assert_eq!(a.to_bits(), b.to_bits(), "the numbers differ at {:?}", point(i));
    }
    let mine = ask(|_| f64::from(ours.compile(&last)));
    row("compile", n, mine, ask(|_| f64::from(u8::from(theirs.compile(&last)))));
    let mine = ask(|i| f64::from(ours.evaluate_at(&last, point(i))));
    row("evaluate_at", n, mine, ask(|i| theirs.evaluate_at(&last, point(i)).unwrap()));
}

fn edits(n: usize) {
    edit("add_constant", n, |f| f.ours.add_constant("new", 1.0) == 0, |f| f.theirs.add_constant("new", 1.0));
    edit("add_function", n, |f| f.ours.add_function("new", form::SPHERE, [0.0, 0.0, 0.0, 1.0, 0.0]) == 0, |f| f.theirs.add_sphere("new", [0.0, 0.0, 0.0, 1.0, 0.0]));
    edit("add_operation", n, |f| f.ours.add_operation("new", form::UNION, 0.0, &["shape_0", "shape_1"]) == 0, |f| f.theirs.add_union("new", &["shape_0", "shape_1"]));
    edit("add_component", n, |f| f.ours.add_component("shape_0", OFFSET, 1.0) == 0, |f| f.theirs.add_component("shape_0", 1.0));
    edit("add_input", n, |f| f.ours.add_input(&f.last, &f.inner, 1) == 0, |f| f.theirs.add_input(&f.last, &f.inner, 1));
    edit("remove_input", n, |f| f.ours.remove_input(&f.last, 0) == 0, |f| f.theirs.remove_input(&f.last, 0));
    edit("remove_component", n, |f| f.ours.remove_component(&shape(1)) == 0, |f| f.theirs.remove_component(&shape(1)));
    edit("rename_component", n, |f| f.ours.rename_component("shape_1", "renamed") == 0, |f| f.theirs.rename_component("shape_1", "renamed"));
    edit("set_parameter", n, |f| f.ours.set_value("shape_1", "Radius", 3.0) == 0, |f| f.theirs.set_value("shape_1", "Radius", 3.0));
}

fn main() {
    println!("| what | components | this, ns | the Rust, ns | ratio |");
    println!("|---|---|---|---|---|");
    distances::rows();
    SIZES.into_iter().for_each(asking);
    SIZES.into_iter().for_each(edits);
}
