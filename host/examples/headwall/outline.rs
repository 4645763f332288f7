//! The outlines of the concrete in a slice.
use crate::slice::Slice;
use dotterelwire::{Model, Refusal};
use std::collections::BTreeMap;

/// A point in steps of the grid: right, and down.
pub type Spot = (f64, f64);
/// An edge of the grid: the corner it starts at, and whether it goes down.
type Edge = (i64, i64, bool);

/// Whether there is concrete at a corner. All around the slice is air, so that every outline closes.
fn is_concrete(slice: &Slice, row: i64, column: i64) -> bool {
    let at = |i: i64| usize::try_from(i).ok();
    let row = at(row).and_then(|row| slice.rows.get(row));
    row.and_then(|row| row.get(at(column)?)).copied().unwrap_or(false)
}

/// Where an edge passes from concrete to air: its halves are asked again and again.
fn crossing(model: &Model, slice: &Slice, (row, column, down): Edge) -> Result<Spot, Refusal> {
    let along = |part: f64| {
        let (right, below) = if down { (0.0, part) } else { (part, 0.0) };
        (column as f64 + right, row as f64 + below)
    };
    let first = is_concrete(slice, row, column);
    let (mut low, mut high) = (0.0, 1.0);
    for _ in 0..10 {
        let middle = (low + high) / 2.0;
        if slice.is_concrete(model, along(middle))? == first {
            low = middle;
        } else {
            high = middle;
        }
    }
    Ok(along((low + high) / 2.0))
}

/// The pieces of outline inside one cell, each from edge to edge with the concrete on the same side.
fn pieces(slice: &Slice, row: i64, column: i64) -> Vec<(Edge, Edge)> {
    let (top, bottom) = ((row, column, false), (row + 1, column, false));
    let (left, right) = ((row, column, true), (row, column + 1, true));
    let corners = [(row, column), (row, column + 1), (row + 1, column + 1), (row + 1, column)];
    match corners.map(|(row, column)| is_concrete(slice, row, column)) {
        [false, false, false, false] | [true, true, true, true] => vec![],
        [true, false, false, false] => vec![(left, top)],
        [false, true, false, false] => vec![(top, right)],
        [false, false, true, false] => vec![(right, bottom)],
        [false, false, false, true] => vec![(bottom, left)],
        [true, true, false, false] => vec![(left, right)],
        [false, true, true, false] => vec![(top, bottom)],
        [false, false, true, true] => vec![(right, left)],
        [true, false, false, true] => vec![(bottom, top)],
        [true, true, true, false] => vec![(left, bottom)],
        [false, true, true, true] => vec![(top, left)],
        [true, false, true, true] => vec![(right, top)],
        [true, true, false, true] => vec![(bottom, right)],
        [true, false, true, false] => vec![(left, top), (right, bottom)],
        [false, true, false, true] => vec![(top, right), (bottom, left)],
    }
}

/// The closed outlines.
pub fn outlines(model: &Model, slice: &Slice) -> Result<Vec<Vec<Spot>>, Refusal> {
    let (rows, columns) = (slice.rows.len() as i64, slice.rows[0].len() as i64);
    let cells = (-1..rows).flat_map(|row| (-1..columns).map(move |column| (row, column)));
    let mut next: BTreeMap<Edge, Edge> = cells.flat_map(|(row, column)| pieces(slice, row, column)).collect();
    let mut loops = vec![];
    while let Some((first, mut edge)) = next.pop_first() {
        let mut spots = vec![crossing(model, slice, first)?];
        while edge != first {
            spots.push(crossing(model, slice, edge)?);
            edge = next.remove(&edge).unwrap_or(first);
        }
        loops.push(spots);
    }
    Ok(loops)
}
