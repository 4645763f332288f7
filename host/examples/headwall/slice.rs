//! Where the form has concrete in a plane along the pipe.
use crate::form::HEADWALL;
use dotterelwire::{Model, Refusal};

/// What a slice covers: along the pipe, and up.
pub const LEFT: f64 = -2.0;
pub const RIGHT: f64 = 2.0;
pub const BOTTOM: f64 = -1.65;
pub const TOP: f64 = 1.95;
/// Rounding puts a point of a face on either side of it; what is within a thousandth of a millimetre is drawn as concrete.
const FACE: f64 = 1e-6;

/// Concrete or air at the corners of a grid, the topmost row first.
pub struct Slice {
    /// Where the plane stands, across the stream.
    pub x: f64,
    pub step: f64,
    pub rows: Vec<Vec<bool>>,
}

impl Slice {
    pub fn of(model: &Model, x: f64, step: f64) -> Result<Slice, Refusal> {
        let columns = ((RIGHT - LEFT) / step).round() as usize + 1;
        let rows = ((TOP - BOTTOM) / step).round() as usize + 1;
        let mut slice = Slice { x, step, rows: vec![] };
        for row in 0..rows {
            let spots = (0..columns).map(|column| (column as f64, row as f64));
            let row = spots.map(|spot| slice.is_concrete(model, spot));
            let row = row.collect::<Result<_, _>>()?;
            slice.rows.push(row);
        }
        Ok(slice)
    }

    /// Whether there is concrete at a spot, in steps to the right and down.
    pub fn is_concrete(&self, model: &Model, (right, down): (f64, f64)) -> Result<bool, Refusal> {
        let (y, z) = (LEFT + right * self.step, TOP - down * self.step);
        Ok(model.evaluate_at(HEADWALL, self.x, y, z)? < FACE)
    }
}
