//! The form, from spheres, tori and operations. X runs across the stream, Y along the pipe and Z up, in metres; the pipe's axis
//! goes through the origin, in the middle of the wall.
use dotterelwire::{Model, Operation, Refusal, Sphere, Torus, Vec3};

type Done = Result<(), Refusal>;

pub const HEADWALL: &str = "headwall";
const WIDTH: f64 = 3.68;
const STEM: f64 = 0.5;
const TOP: f64 = 1.7;
const FOOTING_TOP: f64 = -1.0;
const BOTTOM: f64 = -1.4;
const FOOTING: f64 = 1.5;
const BORE_RADIUS: f64 = 0.5;
const PIPE_LENGTH: f64 = 3.2;
const COLLAR_RADIUS: f64 = 0.68;
const COLLAR_THICKNESS: f64 = 0.12;

pub fn headwall() -> Result<Model, Refusal> {
    let mut model = Model::new();
    add_plane(&mut model, "across", Vec3::new(1.0, 0.0, 0.0))?;
    add_plane(&mut model, "along", Vec3::new(0.0, 1.0, 0.0))?;
    add_plane(&mut model, "up", Vec3::new(0.0, 0.0, 1.0))?;
    model.add_operation("width", Operation::Thickness { t: WIDTH }, Some(&["across"]))?;
    add_block(&mut model, "stem", STEM, FOOTING_TOP, TOP)?;
    add_block(&mut model, "footing", FOOTING, BOTTOM, FOOTING_TOP)?;
    model.add_operation("wall", Operation::BooleanUnion, Some(&["stem", "footing"]))?;
    add_pipe(&mut model)?;
    model.add_operation("wall less pipe", Operation::BooleanDifference, Some(&["wall", "pipe"]))?;
    let face = Vec3::new(0.0, -STEM / 2.0, 0.0);
    model.add_function("collar", Torus::new(face, COLLAR_RADIUS, COLLAR_THICKNESS))?;
    model.add_operation(HEADWALL, Operation::BooleanUnion, Some(&["wall less pipe", "collar"]))?;
    Ok(model)
}

/// The nine-yard mistake: two wires, each in the other's place.
pub fn swap_the_places(model: &mut Model) -> Done {
    model.add_input("wall less pipe", "pipe", 0)?;
    model.add_input("wall less pipe", "wall", 1)
}

/// How far a point is on one side of a plane through the origin: half of how much nearer it is to a point a kilometre off
/// there than to one as far on the other side. Here that is less than a thousandth of a millimetre off.
fn add_plane(model: &mut Model, tag: &str, towards: Vec3) -> Done {
    let (near, far) = (format!("{tag}: near"), format!("{tag}: far"));
    let twice = format!("{tag}: twice");
    model.add_function(&near, Sphere::new(towards.scale(1000.0), 0.0))?;
    model.add_function(&far, Sphere::new(towards.scale(-1000.0), 0.0))?;
    model.add_operation(&twice, Operation::Subtract, Some(&[&far, &near]))?;
    let half = Operation::Remap { from_min: 0.0, from_max: 2.0, to_min: 0.0, to_max: 1.0 };
    model.add_operation(tag, half, Some(&[&twice]))?;
    Ok(())
}

/// A block as wide as the wall: what three slabs have in common.
fn add_block(model: &mut Model, tag: &str, depth: f64, bottom: f64, top: f64) -> Done {
    let [slab, middle, level, face] = ["slab", "middle", "level", "face"].map(|part| format!("{tag}: {part}"));
    model.add_operation(&slab, Operation::Thickness { t: depth }, Some(&["along"]))?;
    model.add_operation(&middle, Operation::Offset { distance: (top + bottom) / 2.0 }, Some(&["up"]))?;
    model.add_operation(&level, Operation::Thickness { t: top - bottom }, Some(&[&middle]))?;
    model.add_operation(&face, Operation::BooleanIntersection, Some(&[&level, "width"]))?;
    model.add_operation(tag, Operation::BooleanIntersection, Some(&[&slab, &face]))?;
    Ok(())
}

/// A straight pipe round the Y axis. With p the distance to the origin and q that to a ring of twice the bore's radius,
/// p² − q² is four times the radius times the distance to the bore.
fn add_pipe(model: &mut Model) -> Done {
    let twice = 2.0 * BORE_RADIUS;
    model.add_function("pipe: middle", Sphere::new(Vec3::origin(), 0.0))?;
    model.add_function("pipe: ring", Torus::new(Vec3::origin(), twice, 0.0))?;
    model.add_operation("pipe: p2", Operation::Multiply, Some(&["pipe: middle", "pipe: middle"]))?;
    model.add_operation("pipe: q2", Operation::Multiply, Some(&["pipe: ring", "pipe: ring"]))?;
    model.add_operation("pipe: p2 - q2", Operation::Subtract, Some(&["pipe: p2", "pipe: q2"]))?;
    let scale = Operation::Remap { from_min: 0.0, from_max: 2.0 * twice, to_min: 0.0, to_max: 1.0 };
    model.add_operation("bore", scale, Some(&["pipe: p2 - q2"]))?;
    model.add_operation("pipe: length", Operation::Thickness { t: PIPE_LENGTH }, Some(&["along"]))?;
    model.add_operation("pipe", Operation::BooleanIntersection, Some(&["bore", "pipe: length"]))?;
    Ok(())
}
