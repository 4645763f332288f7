//! The points at which the forms are asked.
use crate::form::HEADWALL;
use crate::Shown;
use dotterelwire::Refusal;
use std::fmt::Write;

pub struct Point {
    pub name: char,
    pub what: &'static str,
    /// Along the pipe, and up; all stand over its axis.
    pub y: f64,
    pub z: f64,
}

pub const POINTS: [Point; 6] = [
    Point { name: 'A', what: "in the stem, over the pipe", y: 0.0, z: 1.2 },
    Point { name: 'B', what: "in the opening", y: 0.0, z: 0.0 },
    Point { name: 'C', what: "in the collar", y: -0.25, z: 0.68 },
    Point { name: 'D', what: "in the footing", y: 0.0, z: -1.2 },
    Point { name: 'E', what: "in the stream, out of the pipe", y: -1.0, z: 0.0 },
    Point { name: 'F', what: "in the air, behind the wall", y: 1.0, z: 1.2 },
];

/// Each point with the number of each form.
pub fn table(shown: &[Shown]) -> Result<String, Refusal> {
    let mut table = format!("{:>63} {:>9}\n", "as drawn", "swapped");
    for Point { name, what, y, z } in &POINTS {
        let numbers = shown.iter().map(|form| form.model.evaluate_at(HEADWALL, 0.0, *y, *z));
        let numbers: Vec<f64> = numbers.collect::<Result<_, _>>()?;
        let place = format!("{name}  {what}");
        let _ = write!(table, "  {place:<35}(0, {y:>5}, {z:>4})");
        for number in numbers {
            let _ = write!(table, " {number:>9.3}");
        }
        table.push('\n');
    }
    Ok(table)
}
