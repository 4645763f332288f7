//! The form that is timed, on both sides: shapes, half of them tori, joined one after the other.
use crate::ours::Ours;
use crate::theirs::Theirs;

pub const SPHERE: u64 = 1;
pub const TORUS: u64 = 2;
pub const UNION: u64 = 10;
pub const DIFFERENCE: u64 = 12;
pub const OFFSET: u64 = 13;

pub struct Form {
    pub ours: Ours,
    pub theirs: Theirs,
    /// The operation over all shapes, and the one below it.
    pub last: String,
    pub inner: String,
}

fn measures(i: usize) -> [f64; 5] {
    let at = i as f64;
    [at * 0.5, at * 0.25 - 3.0, 1.0 - at * 0.125, 2.0, 0.5]
}

pub fn shape(i: usize) -> String {
    format!("shape_{i}")
}

fn add_shape(form: &mut Form, i: usize) {
    let (t, k) = (shape(i), measures(i));
    let kind = if i % 2 == 0 { SPHERE } else { TORUS };
    let taken = if i % 2 == 0 { form.theirs.add_sphere(&t, k) } else { form.theirs.add_torus(&t, k) };
    assert!(taken && form.ours.add_function(&t, kind, k) == 0);
}

fn add_join(form: &mut Form, i: usize, with: usize) {
    let t = format!("join_{i}");
    let (below, s) = (form.last.clone(), shape(with));
    let inputs = [below.as_str(), s.as_str()];
    let kind = if i % 3 == 2 { DIFFERENCE } else { UNION };
    let taken = if i % 3 == 2 { form.theirs.add_difference(&t, &inputs) } else { form.theirs.add_union(&t, &inputs) };
    assert!(taken && form.ours.add_operation(&t, kind, 0.0, &inputs) == 0);
    form.inner = std::mem::replace(&mut form.last, t);
}

/// A form of n components: one shape more than there are joins.
pub fn form(n: usize) -> Form {
    let mut form = Form { ours: Ours::new(), theirs: Theirs::new(), last: shape(0), inner: shape(0) };
    let shapes = n / 2 + 1;
    (0..shapes).for_each(|i| add_shape(&mut form, i));
    (1..n + 1 - shapes).for_each(|i| add_join(&mut form, i, i));
    add_join(&mut form, n, shapes - 1);
    form
}
