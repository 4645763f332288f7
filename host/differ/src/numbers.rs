//! Document 01's numbers, with the faults that a wrong program may have in them.
use crate::words::Component;

/// How min and max treat zeros with opposite signs.
#[derive(Clone, Copy, PartialEq)]
pub enum Zeros {
    /// Document 01: min gives −0 and max +0.
    Signed,
    /// What this build of the Rust gives: the first operand.
    First,
}

fn min(a: f64, b: f64, zeros: Zeros) -> f64 {
    if a.is_nan() {
        b
    } else if b.is_nan() {
        a
    } else if a == b {
        if zeros == Zeros::Signed && b.is_sign_negative() {
            b
        } else {
            a
        }
    } else if a < b {
        a
    } else {
        b
    }
}

fn max(a: f64, b: f64, zeros: Zeros) -> f64 {
    if a.is_nan() {
        b
    } else if b.is_nan() {
        a
    } else if a == b {
        if zeros == Zeros::Signed && b.is_sign_positive() {
            b
        } else {
            a
        }
    } else if a > b {
        a
    } else {
        b
    }
}

/// A root by Newton's steps from a good guess, and no check at the end.
fn newton(x: f64) -> f64 {
    if !(x > 0.0 && x < f64::INFINITY) {
        return x.sqrt();
    }
    let mut r = f64::from_bits((x.to_bits() >> 1) + (1023 << 51));
    for _ in 0..5 {
        r = 0.5 * (r + x / r);
    }
    r
}

fn root(x: f64, fault: &str) -> f64 {
    match fault {
        "newton-root" => newton(x),
        "root-of-minus-zero" if x == 0.0 => 0.0,
        _ => x.sqrt(),
    }
}

fn sphere(n: &[f64], p: &[f64; 3], fault: &str) -> f64 {
    let d = [n[0] - p[0], n[1] - p[1], n[2] - p[2]];
    let squares = match fault {
        "sphere-fused" => d[2].mul_add(d[2], d[1].mul_add(d[1], d[0] * d[0])),
        "sphere-right-to-left" => d[0] * d[0] + (d[1] * d[1] + d[2] * d[2]),
        _ => d[0] * d[0] + d[1] * d[1] + d[2] * d[2],
    };
    root(squares, fault) - n[3]
}

fn torus(n: &[f64], p: &[f64; 3], fault: &str) -> f64 {
    let d = [p[0] - n[0], p[1] - n[1], p[2] - n[2]];
    let (across, up) = if fault == "torus-axes" { (d[1], d[2]) } else { (d[2], d[1]) };
    let g = n[3] - root(d[0] * d[0] + across * across, fault);
    let s = g * g + up * up - n[4] * n[4];
    if s < 0.0 && fault != "torus-inside-nan" {
        -root(-s, fault)
    } else {
        root(s, fault)
    }
}

fn lerp(a: f64, b: f64, factor: f64, fault: &str) -> f64 {
    if fault == "lerp-weighted" {
        a * (1.0 - factor) + b * factor
    } else {
        a + factor * (b - a)
    }
}

fn thickness(a: f64, t: f64, zeros: Zeros, fault: &str) -> f64 {
    let half = if fault == "thickness-whole" { t } else { t / 2.0 };
    max(a - half, -(a + half), zeros)
}

fn difference(a: f64, b: f64, zeros: Zeros, fault: &str) -> f64 {
    if fault == "difference-swapped" {
        max(-a, b, zeros)
    } else {
        max(a, -b, zeros)
    }
}

/// The number of one component at a point, on the numbers in its places.
pub fn compute(c: &Component, p: &[f64; 3], x: &[f64], zeros: Zeros, fault: &str) -> f64 {
    let n = &c.numbers;
    let zeros = if fault == "zeros-as-the-rust" { Zeros::First } else { zeros };
    let nan = fault == "min-nan" && x.iter().any(|v| v.is_nan());
    match c.kind {
        "constant" => n[0],
        "sphere" => sphere(n, p, fault),
        "torus" => torus(n, p, fault),
        "Multiply" => x[0] * x[1],
        "Add" => x[0] + x[1],
        "Subtract" => x[0] - x[1],
        "Divide" if fault == "divide-by-zero-0" && x[1] == 0.0 => 0.0,
        "Divide" => x[0] / x[1],
        "Lerp" => lerp(x[0], x[1], n[0], fault),
        "VariableLerp" => lerp(x[0], x[1], x[2], fault),
        "Remap" => n[2] + (x[0] - n[0]) / (n[1] - n[0]) * (n[3] - n[2]),
        "BooleanUnion" | "BooleanIntersection" if nan => f64::NAN,
        "BooleanUnion" => min(x[0], x[1], zeros),
        "BooleanIntersection" => max(x[0], x[1], zeros),
        "BooleanDifference" => difference(x[0], x[1], zeros, fault),
        "Offset" => x[0] - n[0],
        _ => thickness(x[0], n[0], zeros, fault),
    }
}

/// An operator on vectors, as in the Rust.
pub fn operator(operator: &str, n: &[f64]) -> Vec<f64> {
    match operator {
        "add" => vec![n[0] + n[3], n[1] + n[4], n[2] + n[5]],
        "sub" => vec![n[0] - n[3], n[1] - n[4], n[2] - n[5]],
        "dot" => vec![n[0] * n[3] + n[1] * n[4] + n[2] * n[5]],
        _ => vec![n[0] * n[3], n[1] * n[3], n[2] * n[3]],
    }
}
