//! Slices as text: two rows of the grid in each line.
use crate::concrete::CUBIC_METRES_IN_A_YARD;
use crate::slice::Slice;
use crate::Shown;

/// The grid of a slice as text, in metres: 37 columns.
pub const STEP: f64 = 0.11;
const WIDTH: usize = 38;

fn is_concrete(slice: &Slice, row: usize, column: usize) -> bool {
    slice.rows.get(row).is_some_and(|row| row[column])
}

fn line(slice: &Slice, row: usize) -> String {
    let columns = 0..slice.rows[row].len();
    let sign = |column| match (is_concrete(slice, row, column), is_concrete(slice, row + 1, column)) {
        (true, true) => '█',
        (true, false) => '▀',
        (false, true) => '▄',
        (false, false) => '·',
    };
    columns.map(sign).collect()
}

/// The yards that a crew orders.
pub fn yards(form: &Shown) -> String {
    format!("{:.1} cubic yards of concrete", form.cubic_metres / CUBIC_METRES_IN_A_YARD)
}

pub fn side_by_side(shown: &[Shown]) -> String {
    let beside = |parts: Vec<String>| {
        let padded: Vec<String> = parts.iter().map(|part| format!("{part:<WIDTH$}")).collect();
        format!("  {}\n", padded.join(" ").trim_end())
    };
    let rows = (0..shown[0].coarse.rows.len()).step_by(2);
    let mut lines: Vec<String> =
        rows.map(|row| beside(shown.iter().map(|form| line(&form.coarse, row)).collect())).collect();
    lines.push(beside(shown.iter().map(|form| form.caption.to_string()).collect()));
    lines.push(beside(shown.iter().map(yards).collect()));
    lines.push("\n  █ concrete   · air\n".to_string());
    lines.concat()
}
