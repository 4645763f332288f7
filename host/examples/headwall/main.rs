//! A culvert headwall: a wall less a pipe, with a collar round the opening. Prints the form's number at some points, the
//! concrete that it takes, and the slice through the pipe's axis, as text and as an SVG file; and beside it the same form with
//! the two places of the difference swapped.
//!
//!     headwall FILE.svg
mod concrete;
mod form;
mod outline;
mod points;
mod slice;
mod svg;
mod text;

use concrete::cubic_metres;
use dotterelwire::{Model, Refusal};
use slice::Slice;
use std::error::Error;

/// A form as it is shown: the model that holds it, its caption, its slices and the concrete that it takes.
pub struct Shown {
    pub caption: &'static str,
    pub model: Model,
    pub coarse: Slice,
    pub fine: Slice,
    /// What stands behind the plane of the slice, clear of the opening.
    pub behind: Slice,
    pub cubic_metres: f64,
}

impl Shown {
    fn of(caption: &'static str, model: Model) -> Result<Shown, Refusal> {
        let coarse = Slice::of(&model, 0.0, text::STEP)?;
        let fine = Slice::of(&model, 0.0, svg::STEP)?;
        let behind = Slice::of(&model, 1.0, svg::COARSE)?;
        let cubic_metres = cubic_metres(&model)?;
        Ok(Shown { caption, model, coarse, fine, behind, cubic_metres })
    }
}

fn main() -> Result<(), Box<dyn Error>> {
    let headwall = form::headwall()?;
    let mut swapped = headwall.clone();
    form::swap_the_places(&mut swapped)?;
    let order = headwall.compile(form::HEADWALL)?;
    println!("A culvert headwall, in metres, of {} components.", order.len());
    let shown = [
        Shown::of("as drawn: the wall less the pipe", headwall)?,
        Shown::of("swapped: the pipe less the wall", swapped)?,
    ];
    println!("\nThe form's number, negative in concrete and positive in air:\n\n{}", points::table(&shown)?);
    println!("The slice through the pipe's axis:\n\n{}", text::side_by_side(&shown));
    if let Some(file) = std::env::args().nth(1) {
        std::fs::write(&file, svg::drawing(&shown)?)?;
        println!("The same slice as a drawing: {file}");
    }
    Ok(())
}
