//! A parameter set: document 01's names, kinds of data, clamp and nearness.
use crate::model::{refuse_if, Refusal};
use crate::words::{Component, Data};

/// The parameters of a kind, each with the position of its first number.
pub fn names(kind: &str) -> &'static [(&'static str, usize)] {
    match kind {
        "sphere" => &[("Centre", 0), ("Radius", 3)],
        "torus" => &[("Centre", 0), ("Radius", 3), ("Thickness", 4)],
        "Lerp" => &[("Factor", 0)],
        "Remap" => &[("FromMin", 0), ("FromMax", 1), ("ToMin", 2), ("ToMax", 3)],
        "Offset" => &[("Distance", 0)],
        "Thickness" => &[("Thickness", 0)],
        _ => &[],
    }
}

fn clamped(x: f64, fault: &str) -> f64 {
    match fault {
        "minus-zero-clamped" if x == 0.0 => 0.0,
        "nan-clamped" if x.is_nan() => 0.0,
        _ if x < 0.0 => 0.0,
        _ if x > 1.0 => 1.0,
        _ => x,
    }
}

/// Whether Remap's new number lies too near its partner.
fn near(c: &Component, at: usize, x: f64, fault: &str) -> bool {
    let partner = c.numbers[if fault == "remap-other-pair" { 3 - at } else { at ^ 1 }];
    let apart = (x - partner).abs();
    match fault {
        "remap-at-most" => apart <= f64::EPSILON,
        "remap-equal-only" => x == partner,
        "remap-nan-refused" => !(apart >= f64::EPSILON),
        "remap-never-near" => false,
        _ => apart < f64::EPSILON,
    }
}

pub fn set(c: &mut Component, t: &[u8], name: &[u8], data: &Data, fault: &str) -> Result<(), Refusal> {
    if c.kind == "constant" {
        let Data::Value(x) = data else {
            return Err(Refusal(4, t.to_vec(), 0));
        };
        refuse_if(fault == "constant-takes-value-only" && name != b"Value", 4, t, 0)?;
        c.numbers[0] = *x;
        return Ok(());
    }
    let same =
        |n: &str| n.as_bytes() == name || fault == "names-without-case" && n.as_bytes().eq_ignore_ascii_case(name);
    let Some(&(found, at)) = names(c.kind).iter().find(|n| same(n.0)) else {
        return if fault == "unfit-taken" { Ok(()) } else { Err(Refusal(4, t.to_vec(), 0)) };
    };
    match (found, data) {
        ("Centre", Data::Vec3(v)) => c.numbers[..3].copy_from_slice(v),
        ("Centre", _) => return Err(Refusal(4, t.to_vec(), 0)),
        (_, Data::Value(x)) if c.kind == "Lerp" => c.numbers[at] = clamped(*x, fault),
        (_, Data::Value(x)) => {
            refuse_if(c.kind == "Remap" && near(c, at, *x, fault), 5, t, 0)?;
            c.numbers[at] = *x;
        }
        _ => return Err(Refusal(4, t.to_vec(), 0)),
    }
    Ok(())
}
