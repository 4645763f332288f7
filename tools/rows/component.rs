// The value of every kind of component, by the Rust's own expressions, in the sequence in which the program `component_rows` asks.
use crate::float::{bits, max, min};
use std::hint::black_box;

/// The numbers whose pairs and triples are asked.
const NUMBERS: [u64; 17] = [
    0x0000_0000_0000_0000, // 0
    0x8000_0000_0000_0000, // -0
    0x3ff0_0000_0000_0000, // 1
    0xbff0_0000_0000_0000, // -1
    0x4000_0000_0000_0000, // 2
    0xc000_0000_0000_0000, // -2
    0x3fb9_9999_9999_999a, // 0.1
    0x3fd0_0000_0000_0000, // 0.25
    0x3cb0_0000_0000_0000, // 2^-52
    0x3ca0_0000_0000_0000, // 2^-53
    0x0000_0000_0000_0001, // the smallest subnormal number
    0x000f_ffff_ffff_ffff, // the largest subnormal number
    0x0010_0000_0000_0000, // the smallest normal number
    0x7fef_ffff_ffff_ffff, // the largest normal number
    0x7ff0_0000_0000_0000, // infinity
    0xfff0_0000_0000_0000, // -infinity
    0x7ff8_0000_0000_0000, // NaN
];

/// The ranges of Remap: positions among the numbers.
const RANGES: [(usize, usize); 12] = [
    (0, 2),
    (3, 4),
    (6, 7),
    (5, 6),
    (9, 8),
    (4, 0),
    (10, 12),
    (11, 13),
    (1, 0),
    (2, 2),
    (15, 14),
    (16, 7),
];

/// A point or a centre.
type Vec3 = [f64; 3];

// math.rs
fn multiply(inputs: &[f64]) -> f64 {
    inputs[0] * inputs[1]
}

fn add(inputs: &[f64]) -> f64 {
    inputs[0] + inputs[1]
}

fn subtract(inputs: &[f64]) -> f64 {
    inputs[0] - inputs[1]
}

fn divide(inputs: &[f64]) -> f64 {
    inputs[0] / inputs[1]
}

fn lerp(factor: f64, inputs: &[f64]) -> f64 {
    inputs[0] + factor * (inputs[1] - inputs[0])
}

fn variable_lerp(inputs: &[f64]) -> f64 {
    inputs[0] + inputs[2] * (inputs[1] - inputs[0])
}

fn remap(from: (f64, f64), to: (f64, f64), value: f64) -> f64 {
    let ((from_min, from_max), (to_min, to_max)) = (from, to);
    let normalized = (value - from_min) / (from_max - from_min);
    to_min + normalized * (to_max - to_min)
}

// shape.rs, where a.min(b) and a.max(b) are min(a, b) and max(a, b) here: document 01's rule for two zeros
fn boolean_union(inputs: &[f64]) -> f64 {
    min(inputs[0], inputs[1])
}

fn boolean_intersection(inputs: &[f64]) -> f64 {
    max(inputs[0], inputs[1])
}

fn boolean_difference(inputs: &[f64]) -> f64 {
    max(inputs[0], -inputs[1])
}

fn offset(distance: f64, inputs: &[f64]) -> f64 {
    inputs[0] - distance
}

fn thickness(t: f64, inputs: &[f64]) -> f64 {
    let two = 2.0;
    max(inputs[0] - t / two, -(inputs[0] + t / two))
}

// vec3f.rs, sphere.rs, torus.rs
fn sphere(centre: Vec3, radius: f64, [x, y, z]: Vec3) -> f64 {
    let [cx, cy, cz] = centre;
    ((cx - x).powi(2) + (cy - y).powi(2) + (cz - z).powi(2)).sqrt() - radius
}

fn torus(centre: Vec3, r: f64, t: f64, [x, y, z]: Vec3) -> f64 {
    let [cx, cy, cz] = centre;
    let squared_value =
        (r - ((x - cx).powi(2) + (z - cz).powi(2)).sqrt()).powi(2) + (y - cy).powi(2) - t.powi(2);
    if squared_value < 0.0 {
        -(squared_value.abs().sqrt())
    } else {
        squared_value.sqrt()
    }
}

/// The cases P5 to P10 of document 01.
fn cases() -> [f64; 6] {
    [
        boolean_difference(&black_box([1.0, -2.0])),
        boolean_difference(&black_box([-2.0, 1.0])),
        thickness(2.0, &black_box([-3.0])),
        lerp(0.25, &black_box([2.0, 6.0])),
        remap((0.0, 10.0), (0.0, 1.0), black_box(5.0)),
        boolean_union(&black_box([f64::NAN, 7.0])),
    ]
}

fn number(i: usize) -> f64 {
    black_box(f64::from_bits(NUMBERS[i]))
}

/// The value at each pair x, y of the numbers, with z = 0, or at each triple; x changes fastest and z slowest.
fn over(width: usize, value: impl Fn(f64, f64, f64) -> f64) {
    for z in 0..width {
        for y in 0..NUMBERS.len() {
            for x in 0..NUMBERS.len() {
                answer(value(number(x), number(y), number(z)));
            }
        }
    }
}

fn pairs(value: impl Fn(f64, f64, f64) -> f64) {
    over(1, value)
}

fn triples(value: impl Fn(f64, f64, f64) -> f64) {
    over(NUMBERS.len(), value)
}

fn answer(x: f64) {
    println!("{:016x}", bits(x));
}

pub fn write() {
    cases().into_iter().for_each(answer);
    pairs(|x, _, _| x); // Constant
    pairs(|x, y, z| sphere([0.25, -1.0, 2.0], 0.1, [x, y, z]));
    pairs(|x, y, z| torus([0.25, -1.0, 2.0], 2.0, 0.1, [x, y, z]));
    pairs(|x, y, _| multiply(&[x, y]));
    pairs(|x, y, _| add(&[x, y]));
    pairs(|x, y, _| subtract(&[x, y]));
    pairs(|x, y, _| divide(&[x, y]));
    triples(|x, y, z| lerp(z, &[x, y]));
    triples(|x, y, z| variable_lerp(&[x, y, z]));
    for to in RANGES {
        for from in RANGES {
            for x in 0..NUMBERS.len() {
                let range = |(low, high)| (number(low), number(high));
                answer(remap(range(from), range(to), number(x)));
            }
        }
    }
    pairs(|x, y, _| boolean_union(&[x, y]));
    pairs(|x, y, _| boolean_intersection(&[x, y]));
    pairs(|x, y, _| boolean_difference(&[x, y]));
    pairs(|x, y, _| offset(y, &[x]));
    pairs(|x, y, _| thickness(y, &[x]));
}
