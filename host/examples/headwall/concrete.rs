//! How much concrete a form takes, by counting small boxes.
use crate::form::HEADWALL;
use dotterelwire::{Model, Refusal};

pub const CUBIC_METRES_IN_A_YARD: f64 = 0.764554857984;
/// The first corner of the boxes, the length of their edges and how many there are: across, along and up. The form is the
/// same left and right of the pipe's axis, so one side is counted.
const FIRST: [f64; 3] = [0.0, -1.6, -1.4];
const EDGES: [f64; 3] = [0.23, 0.05, 0.05];
const COUNTS: [usize; 3] = [8, 64, 62];

fn middle(axis: usize, i: usize) -> f64 {
    FIRST[axis] + (i as f64 + 0.5) * EDGES[axis]
}

/// The cubic metres of the form, to some hundredths.
pub fn cubic_metres(model: &Model) -> Result<f64, Refusal> {
    let mut boxes = 0;
    for i in 0..COUNTS.iter().product() {
        let (x, rest) = (i % COUNTS[0], i / COUNTS[0]);
        let (y, z) = (rest % COUNTS[1], rest / COUNTS[1]);
        let number = model.evaluate_at(HEADWALL, middle(0, x), middle(1, y), middle(2, z))?;
        boxes += usize::from(number < 0.0);
    }
    Ok(2.0 * boxes as f64 * EDGES.iter().product::<f64>())
}
