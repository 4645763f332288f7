//! Slices as a drawing.
use crate::form::HEADWALL;
use crate::outline::{outlines, Spot};
use crate::points::{Point, POINTS};
use crate::slice::{Slice, BOTTOM, LEFT, RIGHT, TOP};
use crate::text::yards;
use crate::Shown;
use dotterelwire::{Model, Refusal};

/// The grid of a drawn slice, and of what is drawn behind it, in metres.
pub const STEP: f64 = 0.025;
pub const COARSE: f64 = 0.05;
/// Dots of the drawing in a metre.
const METRE: f64 = 130.0;
const MARGIN: f64 = 40.0;
const GAP: f64 = 50.0;
const HEAD: f64 = 150.0;
const FOOT: f64 = 120.0;
const PANEL: f64 = (RIGHT - LEFT) * METRE;
const HEIGHT: f64 = (TOP - BOTTOM) * METRE;

const STYLE: &str = "\
text { font-family: 'DejaVu Sans', Arial, sans-serif; fill: #1f2a36 }
.title { font-size: 26px; font-weight: bold } .note { font-size: 15px; fill: #4a5866 }
.caption { font-size: 18px; font-weight: bold } .small { font-size: 13px }
.air { fill: #e9f2f8; stroke: #b9c8d4 } .concrete { fill: url(#speckle); stroke: #3a4149; stroke-width: 2 }
.behind { fill: #d3d9de; stroke: #9aa5ae }
.axis { stroke: #b2432f; stroke-width: 1.5; stroke-dasharray: 18 5 3 5 } .ruler { stroke: #1f2a36; stroke-width: 2 }
.dot { fill: #b2432f; stroke: white; stroke-width: 1.5 }
.label { font-size: 14px; font-weight: bold; fill: #b2432f; stroke: white; stroke-width: 4; paint-order: stroke }
";

const SPECKLE: &str = r##"<pattern id="speckle" width="14" height="14" patternUnits="userSpaceOnUse"><rect width="14" height="14" fill="#aeb4ba"/><circle cx="3" cy="4" r="1.3" fill="#8d949b"/><circle cx="10" cy="10" r="1.6" fill="#979da4"/><circle cx="11" cy="3" r="0.9" fill="#c5cace"/></pattern>"##;

/// Where a place of the slice stands in its panel.
fn across(y: f64) -> f64 {
    (y - LEFT) * METRE
}

fn down(z: f64) -> f64 {
    (TOP - z) * METRE
}

fn text(class: &str, x: f64, y: f64, said: &str) -> String {
    format!("<text class=\"{class}\" x=\"{x:.1}\" y=\"{y:.1}\">{said}</text>\n")
}

/// The concrete of a slice as one path.
fn concrete(class: &str, model: &Model, slice: &Slice) -> Result<String, Refusal> {
    let dots = slice.step * METRE;
    let outline = |spots: Vec<Spot>| {
        let spots = spots.iter().map(|(x, y)| format!("{:.1} {:.1}", x * dots, y * dots));
        format!("M{}Z", spots.collect::<Vec<_>>().join("L"))
    };
    let path: String = outlines(model, slice)?.into_iter().map(outline).collect();
    Ok(format!("<path class=\"{class}\" fill-rule=\"evenodd\" d=\"{path}\"/>\n"))
}

/// A point with its name and its number.
fn mark(form: &Shown, point: &Point) -> Result<String, Refusal> {
    let (x, y) = (across(point.y), down(point.z));
    let number = form.model.evaluate_at(HEADWALL, 0.0, point.y, point.z)?;
    let said = format!("{} {}", point.name, format!("{number:+.2}").replace('-', "−"));
    let dot = format!("<circle class=\"dot\" cx=\"{x:.1}\" cy=\"{y:.1}\" r=\"4.5\"/>\n");
    Ok(dot + &text("label", x + 8.0, y - 7.0, &said))
}

fn panel(form: &Shown, left: f64) -> Result<String, Refusal> {
    let axis = down(0.0);
    let mut parts = vec![
        format!("<g transform=\"translate({left} {HEAD})\">\n"),
        text("caption", 0.0, -34.0, &capitalized(form.caption)),
        text("note", 0.0, -12.0, &yards(form)),
        format!("<rect class=\"air\" width=\"{PANEL}\" height=\"{HEIGHT:.1}\"/>\n"),
        concrete("behind", &form.model, &form.behind)?,
        concrete("concrete", &form.model, &form.fine)?,
        format!("<line class=\"axis\" x1=\"0\" y1=\"{axis:.1}\" x2=\"{PANEL}\" y2=\"{axis:.1}\"/>\n"),
    ];
    for point in &POINTS {
        parts.push(mark(form, point)?);
    }
    parts.push("</g>\n".to_string());
    Ok(parts.concat())
}

fn capitalized(said: &str) -> String {
    let mut rest = said.chars();
    rest.next().map_or(String::new(), |first| first.to_uppercase().chain(rest).collect())
}

/// One entry of the legend.
fn entry(class: &str, x: f64, y: f64, said: &str) -> String {
    let swatch = format!("<rect class=\"{class}\" x=\"{x}\" y=\"{:.1}\" width=\"34\" height=\"20\"/>\n", y - 15.0);
    swatch + &text("note", x + 44.0, y, said)
}

/// The scale, and what the colours say.
fn legend() -> String {
    let (x, y) = (MARGIN, HEAD + HEIGHT + 40.0);
    let end = x + METRE;
    let axis = format!(
        "<line class=\"axis\" x1=\"{}\" y1=\"{2:.1}\" x2=\"{}\" y2=\"{2:.1}\"/>\n",
        x + 560.0,
        x + 600.0,
        y + 31.0
    );
    [
        format!(
            "<path class=\"ruler\" fill=\"none\" d=\"M{x} {0:.1}v10M{x} {y:.1}H{end}M{end} {0:.1}v10\"/>\n",
            y - 5.0
        ),
        text("small", x + METRE / 2.0 - 12.0, y + 20.0, "1 m"),
        entry("concrete", x + 200.0, y, "concrete, cut: a negative number"),
        entry("behind", x + 200.0, y + 36.0, "concrete behind the cut, 1 m off"),
        entry("air", x + 560.0, y, "air: a positive number"),
        axis,
        text("note", x + 604.0, y + 36.0, "the pipe's axis"),
        text("note", x + 830.0, y, "A to F: points with their numbers"),
    ]
    .concat()
}

pub fn drawing(shown: &[Shown]) -> Result<String, Refusal> {
    let count = shown.len() as f64;
    let (width, height) = (2.0 * MARGIN + count * PANEL + (count - 1.0) * GAP, HEAD + HEIGHT + FOOT);
    let mut parts = vec![
        format!("<svg xmlns=\"http://www.w3.org/2000/svg\" viewBox=\"0 0 {width} {height:.0}\" width=\"{width}\" height=\"{height:.0}\">\n"),
        format!("<style>\n{STYLE}</style>\n<defs>{SPECKLE}</defs>\n<rect width=\"100%\" height=\"100%\" fill=\"white\"/>\n"),
        text("title", MARGIN, 44.0, "A culvert headwall, cut through the pipe's axis"),
        text("note", MARGIN, 70.0, "The same components twice. On the right the two places of the difference are swapped: two wires, and the pipe is poured instead of the wall."),
    ];
    for (i, form) in shown.iter().enumerate() {
        parts.push(panel(form, MARGIN + i as f64 * (PANEL + GAP))?);
    }
    parts.extend([legend(), "</svg>\n".to_string()]);
    Ok(parts.concat())
}
