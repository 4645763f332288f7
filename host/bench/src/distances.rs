//! The root beside the hardware's, and the two distances beside the Rust's, on random patterns and points.
use crate::ours::{dw_root, dw_sphere, dw_torus};
use imlet::types::computation::traits::ImplicitFunction;
use imlet::types::geometry::{Sphere, Torus, Vec3};
use std::hint::black_box;
use std::time::Instant;

const PATTERNS: u64 = 20_000_000;
const POINTS: usize = 4096;
// more than a processor's branches learn by heart, and few enough for its caches
const NEW_POINTS: usize = 65_536;
const CALLS: usize = 2_000_000;
const ROUNDS: usize = 15;

// xorshift64
fn random(state: &mut u64) -> u64 {
    *state ^= *state << 13;
    *state ^= *state >> 7;
    *state ^= *state << 17;
    *state
}

fn coordinate(state: &mut u64) -> f64 {
    (random(state) >> 11) as f64 / (1u64 << 53) as f64 * 20.0 - 10.0
}

fn alike(a: f64, b: f64) -> bool {
    a.to_bits() == b.to_bits() || (a.is_nan() && b.is_nan())
}

/// ns a call, the best of some rounds
fn time<F: FnMut(usize) -> f64>(call: F) -> f64 {
    time_over(POINTS, call)
}

fn time_over<F: FnMut(usize) -> f64>(points: usize, mut call: F) -> f64 {
    let mut best = f64::MAX;
    for _ in 0..ROUNDS {
        let start = Instant::now();
        let mut sum = 0.0;
        for i in 0..CALLS {
            sum += call(i % points);
        }
        black_box(sum);
        best = best.min(start.elapsed().as_nanos() as f64 / CALLS as f64);
    }
    best
}

fn row(name: &str, ours: f64, theirs: f64) {
    println!("| {name} | | {ours:.1} | {theirs:.1} | {:.2} |", ours / theirs);
}

#[inline(never)]
fn hardware_root(x: f64) -> f64 {
    x.sqrt()
}

#[inline(never)]
fn their_sphere(s: &Sphere<f64>, q: &[f64; 3]) -> f64 {
    s.eval(q[0], q[1], q[2])
}

#[inline(never)]
fn their_torus(s: &Torus<f64>, q: &[f64; 3]) -> f64 {
    s.eval(q[0], q[1], q[2])
}

pub fn rows() {
    let mut state = 88172645463325252u64;
    for _ in 0..PATTERNS {
        let x = f64::from_bits(random(&mut state));
        assert!(alike(unsafe { dw_root(x) }, x.sqrt()), "the root of {x:?} differs from the hardware's");
    }
    let p: Vec<[f64; 3]> = (0..NEW_POINTS)
        .map(|_| [coordinate(&mut state), coordinate(&mut state), coordinate(&mut state)])
        .collect();
    let centre = Vec3::new(0.5, -0.25, 1.0);
    let (sphere, torus) = (Sphere::new(centre, 2.0), Torus::new(centre, 5.0, 2.0));
    let our_sphere = |q: &[f64; 3]| unsafe { dw_sphere(0.5, -0.25, 1.0, 2.0, q[0], q[1], q[2]) };
    let our_torus = |q: &[f64; 3]| unsafe { dw_torus(0.5, -0.25, 1.0, 5.0, 2.0, q[0], q[1], q[2]) };
    for q in &p {
        assert!(alike(our_sphere(q), their_sphere(&sphere, q)) && alike(our_torus(q), their_torus(&torus, q)));
    }
    let x: Vec<f64> = p.iter().map(|q| q[0].abs() + 0.001).collect();
    row("root, independent calls", time(|i| unsafe { dw_root(x[i]) }), time(|i| hardware_root(x[i])));
    let (mut v, mut w) = (3.0, 3.0);
    let chained = time(|i| {
        v = unsafe { dw_root(v + x[i]) };
        v
    });
    let their_chained = time(|i| {
        w = hardware_root(w + x[i]);
        w
    });
    row("root, each on the last", chained, their_chained);
    row("sphere", time(|i| our_sphere(&p[i])), time(|i| their_sphere(&sphere, &p[i])));
    row("torus", time(|i| our_torus(&p[i])), time(|i| their_torus(&torus, &p[i])));
    let (ours, theirs) = (time_over(NEW_POINTS, |i| our_torus(&p[i])), time_over(NEW_POINTS, |i| their_torus(&torus, &p[i])));
    row("torus, 65,536 points", ours, theirs);
    let (ours, theirs) = (time_over(NEW_POINTS, |i| unsafe { dw_root(x[i]) }), time_over(NEW_POINTS, |i| hardware_root(x[i])));
    row("root, 65,536 numbers", ours, theirs);
}
