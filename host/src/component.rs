//! Components: as a host writes them, and as a kind with five words (docs/LAYOUT.md).
use crate::geometry::{Sphere, Torus, Vec3};
use crate::layout::bits;

/// The number of each kind.
pub mod kind {
    pub const CONSTANT: u64 = 0;
    pub const SPHERE: u64 = 1;
    pub const TORUS: u64 = 2;
    pub const MULTIPLY: u64 = 3;
    pub const ADD: u64 = 4;
    pub const SUBTRACT: u64 = 5;
    pub const DIVIDE: u64 = 6;
    pub const LERP: u64 = 7;
    pub const VARIABLE_LERP: u64 = 8;
    pub const REMAP: u64 = 9;
    pub const BOOLEAN_UNION: u64 = 10;
    pub const BOOLEAN_INTERSECTION: u64 = 11;
    pub const BOOLEAN_DIFFERENCE: u64 = 12;
    pub const OFFSET: u64 = 13;
    pub const THICKNESS: u64 = 14;
    /// How many kinds there are: a number from here on is none.
    pub const COUNT: u64 = 15;
}

/// A component as it crosses the boundary: the kind's number, and the bits of its numbers, 0 past them.
#[derive(Debug, Clone, Copy, PartialEq, Eq)]
pub struct Row {
    pub kind: u64,
    pub numbers: [u64; 5],
}

impl Row {
    /// A kind with its numbers, five at most.
    pub fn new(kind: u64, given: &[f64]) -> Row {
        let mut numbers = [0; 5];
        for (word, number) in numbers.iter_mut().zip(given) {
            *word = bits(*number);
        }
        Row { kind, numbers }
    }
}

/// A constant, a function of the point, or an operation on what others answer.
#[derive(Debug, Clone, Copy, PartialEq)]
pub enum Component {
    Constant(f64),
    Function(Function),
    Operation(Operation),
}

#[derive(Debug, Clone, Copy, PartialEq)]
pub enum Function {
    Sphere(Sphere),
    Torus(Torus),
}

#[derive(Debug, Clone, Copy, PartialEq)]
pub enum Operation {
    Multiply,
    Add,
    Subtract,
    Divide,
    Lerp { factor: f64 },
    VariableLerp,
    Remap { from_min: f64, from_max: f64, to_min: f64, to_max: f64 },
    BooleanUnion,
    BooleanIntersection,
    BooleanDifference,
    Offset { distance: f64 },
    Thickness { t: f64 },
}

impl Function {
    pub fn row(&self) -> Row {
        match *self {
            Function::Sphere(Sphere { centre: c, radius }) => Row::new(kind::SPHERE, &[c.x, c.y, c.z, radius]),
            Function::Torus(Torus { centre: c, r, t }) => Row::new(kind::TORUS, &[c.x, c.y, c.z, r, t]),
        }
    }
}

impl Operation {
    pub fn row(&self) -> Row {
        match *self {
            Operation::Multiply => Row::new(kind::MULTIPLY, &[]),
            Operation::Add => Row::new(kind::ADD, &[]),
            Operation::Subtract => Row::new(kind::SUBTRACT, &[]),
            Operation::Divide => Row::new(kind::DIVIDE, &[]),
            Operation::Lerp { factor } => Row::new(kind::LERP, &[factor]),
            Operation::VariableLerp => Row::new(kind::VARIABLE_LERP, &[]),
            Operation::Remap { from_min, from_max, to_min, to_max } => {
                Row::new(kind::REMAP, &[from_min, from_max, to_min, to_max])
            }
            Operation::BooleanUnion => Row::new(kind::BOOLEAN_UNION, &[]),
            Operation::BooleanIntersection => Row::new(kind::BOOLEAN_INTERSECTION, &[]),
            Operation::BooleanDifference => Row::new(kind::BOOLEAN_DIFFERENCE, &[]),
            Operation::Offset { distance } => Row::new(kind::OFFSET, &[distance]),
            Operation::Thickness { t } => Row::new(kind::THICKNESS, &[t]),
        }
    }
}

impl Component {
    pub fn row(&self) -> Row {
        match self {
            Component::Constant(value) => Row::new(kind::CONSTANT, &[*value]),
            Component::Function(function) => function.row(),
            Component::Operation(operation) => operation.row(),
        }
    }

    /// The component of a row; none where the kind is none.
    pub fn of(row: &Row) -> Option<Component> {
        let [a, b, c, d, e] = row.numbers.map(f64::from_bits);
        let centre = Vec3::new(a, b, c);
        match row.kind {
            kind::CONSTANT => Some(Component::Constant(a)),
            kind::SPHERE => Some(Sphere::new(centre, d).into()),
            kind::TORUS => Some(Torus::new(centre, d, e).into()),
            _ => operation(row.kind, [a, b, c, d]).map(Component::from),
        }
    }
}

fn operation(kind: u64, [a, b, c, d]: [f64; 4]) -> Option<Operation> {
    Some(match kind {
        kind::MULTIPLY => Operation::Multiply,
        kind::ADD => Operation::Add,
        kind::SUBTRACT => Operation::Subtract,
        kind::DIVIDE => Operation::Divide,
        kind::LERP => Operation::Lerp { factor: a },
        kind::VARIABLE_LERP => Operation::VariableLerp,
        kind::REMAP => Operation::Remap { from_min: a, from_max: b, to_min: c, to_max: d },
        kind::BOOLEAN_UNION => Operation::BooleanUnion,
        kind::BOOLEAN_INTERSECTION => Operation::BooleanIntersection,
        kind::BOOLEAN_DIFFERENCE => Operation::BooleanDifference,
        kind::OFFSET => Operation::Offset { distance: a },
        kind::THICKNESS => Operation::Thickness { t: a },
        _ => return None,
    })
}

impl From<Sphere> for Function {
    fn from(sphere: Sphere) -> Function {
        Function::Sphere(sphere)
    }
}

impl From<Torus> for Function {
    fn from(torus: Torus) -> Function {
        Function::Torus(torus)
    }
}

impl From<Operation> for Component {
    fn from(operation: Operation) -> Component {
        Component::Operation(operation)
    }
}

impl<F: Into<Function>> From<F> for Component {
    fn from(function: F) -> Component {
        Component::Function(function.into())
    }
}
