// Roots, sums, differences, products, quotients, minima and maxima.
use crate::random::Random;
use std::collections::HashSet;
use std::hint::black_box;

const NAN: u64 = 0x7ff8_0000_0000_0000;
const TWO: [&str; 6] = ["sum", "difference", "product", "quotient", "min", "max"];

/// A NaN's bits are written as document 01 hands one out.
pub fn bits(x: f64) -> u64 {
    if x.is_nan() { NAN } else { x.to_bits() }
}

/// Document 01's rule. The Rust leaves open which of two zeros with opposite signs it gives.
pub fn min(a: f64, b: f64) -> f64 {
    if a == 0.0 && b == 0.0 {
        return if a.is_sign_negative() || b.is_sign_negative() { -0.0 } else { 0.0 };
    }
    a.min(b)
}

pub fn max(a: f64, b: f64) -> f64 {
    if a == 0.0 && b == 0.0 {
        return if a.is_sign_negative() && b.is_sign_negative() { -0.0 } else { 0.0 };
    }
    a.max(b)
}

/// `black_box` keeps the compiler from working the answer out itself.
fn answer(name: &str, a: f64, b: f64) -> f64 {
    let (a, b) = (black_box(a), black_box(b));
    match name {
        "root" => a.sqrt(),
        "sum" => a + b,
        "difference" => a - b,
        "product" => a * b,
        "quotient" => a / b,
        "min" => min(a, b),
        "max" => max(a, b),
        _ => unreachable!(),
    }
}

/// n * 2^e, where that is a double.
fn scaled(n: u64, e: i64) -> f64 {
    let mut x = n as f64;
    assert_eq!(x as u64, n);
    let mut left = e;
    while left != 0 {
        let step = left.clamp(-1000, 1000);
        let power = f64::from_bits(((step + 1023) as u64) << 52);
        let next = x * power;
        assert!(next.is_finite() && next / power == x, "{n} * 2^{e} is no double");
        x = next;
        left -= step;
    }
    x
}

fn up(x: f64) -> f64 {
    x.next_up()
}

fn down(x: f64) -> f64 {
    x.next_down()
}

/// A number and its two neighbours.
fn around(x: f64) -> [f64; 3] {
    [down(x), x, up(x)]
}

struct Rows {
    lines: Vec<String>,
    seen: HashSet<String>,
}

impl Rows {
    fn line(&mut self, asked: String, answer: f64) {
        if self.seen.insert(asked.clone()) {
            self.lines.push(format!("{asked} {:016x}", bits(answer)));
        }
    }

    fn root(&mut self, x: f64) {
        self.line(format!("root {:016x}", x.to_bits()), answer("root", x, x));
    }

    fn roots(&mut self, xs: [f64; 3]) {
        xs.into_iter().for_each(|x| self.root(x));
    }

    fn two(&mut self, name: &str, a: f64, b: f64) {
        self.line(format!("{name} {:016x} {:016x}", a.to_bits(), b.to_bits()), answer(name, a, b));
    }

    /// The sum of a and b with either sign, and the same as a difference.
    fn sums(&mut self, a: f64, b: f64) {
        self.two("sum", a, b);
        self.two("difference", -b, a);
    }
}

fn specials() -> [f64; 16] {
    let least = f64::from_bits(1);
    let small = f64::from_bits(0x000f_ffff_ffff_ffff);
    let max = f64::MAX;
    let inf = f64::INFINITY;
    [
        0.0, -0.0, 1.0, -1.0, 2.0, 0.5, least, -least, small, f64::MIN_POSITIVE, max, -max, inf, -inf,
        f64::from_bits(NAN), 0.1,
    ]
}

/// All pairs of special values, and NaN patterns other than the one handed out.
fn special_rows(rows: &mut Rows) {
    for a in specials() {
        rows.root(a);
        for b in specials() {
            TWO.iter().for_each(|name| rows.two(name, a, b));
        }
    }
    for n in [0x7ff0_0000_0000_0001, 0x7ff4_0000_0000_0000, 0x7fff_ffff_ffff_ffff, 0xfff0_0000_0000_0001, 0xfff8_0000_0000_0000] {
        let nan = f64::from_bits(n);
        rows.root(nan);
        for b in [0.0, -0.0, 1.0, -3.5, f64::INFINITY, f64::from_bits(1), nan] {
            TWO.iter().for_each(|name| {
                rows.two(name, nan, b);
                rows.two(name, b, nan);
            });
        }
    }
}

fn random_rows(rows: &mut Rows, r: &mut Random) {
    for _ in 0..120 {
        rows.root(f64::from_bits(r.next()));
        rows.root(r.normal(-1022, 1023).abs());
        rows.root(r.normal(-4, 4).abs());
        rows.root(r.subnormal().abs());
    }
    for _ in 0..60 {
        for name in TWO {
            rows.two(name, f64::from_bits(r.next()), f64::from_bits(r.next()));
            rows.two(name, r.subnormal(), r.subnormal());
        }
        let near = r.between(-900, 900);
        let a = r.normal(near, near);
        let b = r.normal(near - 60, near + 60);
        rows.two("sum", a, b);
        rows.two("difference", a, b);
        rows.two("product", r.normal(-500, 500), r.normal(-500, 500));
        rows.two("quotient", r.normal(-500, 500), r.normal(-500, 500));
        // answers among the subnormal numbers and around the smallest
        rows.two("product", r.normal(-540, -510), r.normal(-540, -510));
        rows.two("quotient", r.normal(-540, -510), r.normal(500, 540));
        rows.two("product", r.subnormal(), r.normal(-3, 60));
        rows.two("quotient", r.subnormal(), r.normal(-3, 60));
        rows.two("quotient", r.subnormal(), r.subnormal());
        rows.two("sum", r.subnormal(), r.normal(-1022, -1000));
        rows.two("difference", r.normal(-1022, -1022), r.normal(-1022, -1022));
        for name in ["min", "max"] {
            rows.two(name, a, b);
            rows.two(name, a, if r.next() & 1 == 0 { up(a) } else { down(a) });
            rows.two(name, a, a);
        }
    }
}

/// Perfect squares, at any even power of two, and their neighbours.
fn square_rows(rows: &mut Rows, r: &mut Random) {
    for n in 1..=64u64 {
        rows.root(scaled(n * n, 0));
    }
    for _ in 0..100 {
        let digits = r.between(2, 26) as u32;
        let n = r.odd(digits);
        let half = r.between(-500, 450);
        rows.roots(around(scaled(n * n, half * 2)));
        let q = r.normal(-500, 500).abs();
        rows.roots(around(q * q));
    }
    // subnormal squares
    for _ in 0..30 {
        let digits = r.between(1, 25) as u32;
        let n = r.odd(digits);
        rows.roots(around(scaled(n * n, -1074)));
    }
}

/// Powers of two and their neighbours.
fn power_rows(rows: &mut Rows, r: &mut Random) {
    for e in (-1074..=1023).step_by(9).chain([-1074, -1073, -1023, -1022, -1021, -2, -1, 0, 1, 2, 1021, 1022, 1023]) {
        rows.roots(around(scaled(1, e)));
    }
    for _ in 0..14 {
        let e = r.between(-1074, 1023);
        let f = (e + r.between(-56, 56)).clamp(-1074, 1023);
        let g = r.between(-1074 - e, 1023 - e).clamp(-1074, 1023);
        for a in around(scaled(1, e)) {
            for b in around(scaled(1, f)) {
                rows.two("sum", a, b);
                rows.two("difference", a, b);
                rows.two("min", a, -b);
                rows.two("max", a, b);
            }
            for b in around(scaled(1, g)) {
                rows.two("product", a, b);
                rows.two("quotient", a, scaled(1, -g.max(-1023)));
                rows.two("quotient", a, b);
            }
        }
    }
}

/// Sums halfway between two doubles, and a step to either side of it.
fn halfway_sums(rows: &mut Rows, r: &mut Random) {
    let big = scaled(1, 53);
    for b in [1.0, 2.0, 3.0, 5.0] {
        rows.sums(big, b);
        rows.sums(-big, b);
        rows.sums(big + 2.0, b);
    }
    for _ in 0..70 {
        // q * 2^e and half of its last place, or an odd number of halves
        let q = r.next() >> 11 | 1 << 52;
        let e = r.between(-1070, 900);
        let digits = r.between(1, 40) as u32;
        for half in [scaled(1, e - 1), scaled(r.odd(digits), e - 1)] {
            around(half).into_iter().for_each(|h| rows.sums(scaled(q, e), h));
            rows.sums(scaled(q, e), -half);
        }
        // two of 53 digits whose sum is odd and has 54
        let p = r.next() >> 11 | 1 << 52;
        rows.sums(scaled(q, e), scaled(p ^ (p & 1) ^ (q & 1) ^ 1, e));
    }
}

/// Products halfway between two doubles: odd and of 54 digits, or of less where the answer is subnormal.
fn halfway_products(rows: &mut Rows, r: &mut Random) {
    let mut made = 0;
    while made < 70 {
        let digits = r.between(2, 52) as u32;
        let (m, n) = (r.odd(digits), r.odd(54 - digits));
        let (e, f) = (r.between(-450, 400), r.between(-450, 400));
        if (m as u128 * n as u128) >> 53 == 1 {
            let (a, b) = (scaled(m, e), scaled(n, f));
            rows.two("product", a, b);
            rows.two("product", -a, up(b));
            rows.two("product", a, -down(b));
            made += 1;
        }
    }
    for _ in 0..70 {
        let digits = r.between(1, 51) as u32;
        let rest = r.between(1, 52 - digits as i64) as u32;
        let (m, n) = (r.odd(digits), r.odd(rest));
        let e = r.between(-900, -150);
        let (a, b) = (scaled(m, e), scaled(n, -1075 - e));
        rows.two("product", a, b);
        rows.two("product", a, -up(b));
        rows.two("product", -down(a), b);
    }
}

/// The inverse of an odd number, modulo 2^64.
fn inverse(b: u64) -> u64 {
    (0..6).fold(b, |x, _| x.wrapping_mul(2u64.wrapping_sub(b.wrapping_mul(x))))
}

/// Quotients halfway between two doubles, which only subnormal ones can be, and the closest others.
fn halfway_quotients(rows: &mut Rows, r: &mut Random) {
    for _ in 0..70 {
        // an odd number of halves of the smallest double
        let digits = r.between(1, 51) as u32;
        let rest = r.between(1, 52 - digits as i64) as u32;
        let (m, n) = (r.odd(digits), r.odd(rest));
        let e = r.between(-1000, -110);
        let (a, b) = (scaled(m * n, e), scaled(n, e + 1075));
        rows.two("quotient", a, b);
        rows.two("quotient", -a, up(b));
        rows.two("quotient", up(a), -b);
    }
    let mut made = 0;
    while made < 70 {
        // a * 2^54 = b * m + k with an odd m of 54 digits: a / b is k / b off the halfway number m
        let b = r.odd(53);
        let k = r.between(-4, 3) * 2 + 1;
        let m = inverse(b).wrapping_mul((-k) as u64) & ((1 << 54) - 1);
        let a = ((b as i128 * m as i128 + k as i128) >> 54) as u64;
        if m >> 53 == 1 && a > 0 {
            rows.two("quotient", scaled(a, r.between(-400, 400)), scaled(b, r.between(-400, 400)));
            made += 1;
        }
    }
}

/// The numbers whose roots lie closest to halfway between two doubles: g * g + g + k, a multiple of 2^52, for a
/// small k. None lies halfway.
fn halfway_roots(rows: &mut Rows, r: &mut Random) {
    let mask = (1u64 << 53) - 1;
    for k in (-80..=80).filter(|k| k % 2 == 0) {
        for start in [0u64, 1] {
            let mut g = start;
            for _ in 0..7 {
                let value = g.wrapping_mul(g).wrapping_add(g).wrapping_add(k as u64);
                g = g.wrapping_sub(value.wrapping_mul(inverse(g.wrapping_mul(2).wrapping_add(1))));
            }
            for g in [g & mask, (g & mask) ^ 1 << 52] {
                let n = ((g as i128 * g as i128 + g as i128 + k as i128) >> 52) as u64;
                let half = r.between(-500, 450);
                if g >> 52 == 1 && n >> 52 == 1 {
                    rows.root(scaled(n, half * 2));
                } else if g >> 52 == 1 && n >> 53 == 1 && n % 2 == 0 {
                    rows.root(scaled(n / 2, half * 2 + 1));
                }
            }
        }
    }
    // the doubles next to the square of a number halfway between two
    for _ in 0..60 {
        let m = (r.next() >> 11 | 1 << 52) as u128 * 2 + 1;
        let shift = 128 - (m * m).leading_zeros() - 53;
        let top = (m * m >> shift) as u64;
        let e = r.between(-500, 450) * 2 + (shift % 2) as i64;
        rows.root(scaled(top, e));
        rows.root(up(scaled(top, e)));
    }
}

/// Where an answer stops being finite, and where it stops being normal or above zero.
fn edge_rows(rows: &mut Rows) {
    let max = f64::MAX;
    let half = scaled(1, 970);
    for b in around(half).into_iter().chain(around(half / 2.0)).chain(around(half * 2.0)) {
        rows.sums(max, b);
        rows.sums(down(max), b);
        rows.sums(-max, -b);
        rows.sums(max, -b);
    }
    // (2^27 - 1) * (2^27 + 1) * 2^970 is halfway between the largest double and 2^1024
    let halfway = (scaled((1 << 27) - 1, 485), scaled((1 << 27) + 1, 485));
    for a in around(halfway.0) {
        for b in around(halfway.1) {
            rows.two("product", a, b);
            rows.two("product", -a, b);
        }
    }
    for b in around(1.0).into_iter().chain(around(0.5)).chain(around(2.0)) {
        rows.two("product", max, b);
        rows.two("quotient", max, b);
        for a in around(f64::MIN_POSITIVE).into_iter().chain([f64::from_bits(1), f64::from_bits(2), f64::from_bits(3)]) {
            rows.two("product", a, b);
            rows.two("product", -a, b / 2.0);
            rows.two("quotient", a, b);
            rows.two("quotient", a, -b * 2.0);
        }
    }
    for a in around(scaled(1, 512)) {
        around(scaled(1, 512)).into_iter().for_each(|b| rows.two("product", a, b));
        around(scaled(1, -512)).into_iter().for_each(|b| rows.two("quotient", a, b));
    }
    for a in around(scaled(1, -537)) {
        around(scaled(1, -538)).into_iter().for_each(|b| rows.two("product", a, b));
        around(scaled(1, 538)).into_iter().for_each(|b| rows.two("quotient", a, b));
    }
}

pub fn write() {
    let mut rows = Rows { lines: Vec::new(), seen: HashSet::new() };
    let mut r = Random::new(0x0123_4567_89ab_cdef);
    special_rows(&mut rows);
    edge_rows(&mut rows);
    square_rows(&mut rows, &mut r);
    power_rows(&mut rows, &mut r);
    halfway_roots(&mut rows, &mut r);
    halfway_sums(&mut rows, &mut r);
    halfway_products(&mut rows, &mut r);
    halfway_quotients(&mut rows, &mut r);
    random_rows(&mut rows, &mut r);
    let mut out = rows.lines.join("\n");
    out.push('\n');
    print!("{out}");
}
