// A component in the words of the protocol: its kind and its numbers, and the Rust's value for them.
use crate::words::{number_word, Fault, Words};
use imlet::types::computation::model::{Data, ImplicitModel, ModelComponent};
use imlet::types::computation::operations::math::{
    lerp, Add, Divide, Multiply, Remap, Subtract, VariableLerp,
};
use imlet::types::computation::operations::shape::{
    BooleanDifference, BooleanIntersection, BooleanUnion, Offset, Thickness,
};
use imlet::types::computation::ModelError;
use imlet::types::geometry::{Sphere, Torus, Vec3};

pub struct Component<'a> {
    kind: &'a str,
    numbers: Vec<f64>,
}

/// Hands the operation of this kind to an expression, or answers None: the Rust's calls take each kind as its own type.
macro_rules! with_operation {
    ($component:expr, $operation:ident => $answer:expr) => {{
        let n = &$component.numbers;
        macro_rules! taken {
            ($value:expr) => {{
                let $operation = $value;
                Some($answer)
            }};
        }
        match $component.kind {
            "Multiply" => taken!(Multiply::new()),
            "Add" => taken!(Add::new()),
            "Subtract" => taken!(Subtract::new()),
            "Divide" => taken!(Divide::new()),
            "Lerp" => taken!(lerp(n[0])),
            "VariableLerp" => taken!(VariableLerp::new()),
            "Remap" => taken!(Remap::from_ranges(n[0], n[1], n[2], n[3])),
            "BooleanUnion" => taken!(BooleanUnion::new()),
            "BooleanIntersection" => taken!(BooleanIntersection::new()),
            "BooleanDifference" => taken!(BooleanDifference::new()),
            "Offset" => taken!(Offset::new(n[0])),
            "Thickness" => taken!(Thickness::new(n[0])),
            _ => None,
        }
    }};
}

impl<'a> Component<'a> {
    pub fn read(words: &mut Words<'a>) -> Result<Self, Fault> {
        let kind = words.word()?;
        let count = match kind {
            "sphere" | "Remap" => 4,
            "torus" => 5,
            "constant" | "Lerp" | "Offset" | "Thickness" => 1,
            "Multiply" | "Add" | "Subtract" | "Divide" | "VariableLerp" => 0,
            "BooleanUnion" | "BooleanIntersection" | "BooleanDifference" => 0,
            _ => return Err(format!("not a kind: {kind}")),
        };
        let numbers = words.numbers(count)?;
        Ok(Component { kind, numbers })
    }

    fn sphere(&self) -> Sphere<f64> {
        let n = &self.numbers;
        Sphere::new(Vec3::new(n[0], n[1], n[2]), n[3])
    }

    fn torus(&self) -> Torus<f64> {
        let n = &self.numbers;
        Torus::new(Vec3::new(n[0], n[1], n[2]), n[3], n[4])
    }

    pub fn value(&self) -> ModelComponent<f64> {
        match self.kind {
            "constant" => ModelComponent::Constant(self.numbers[0]),
            "sphere" => ModelComponent::Function(Box::new(self.sphere())),
            "torus" => ModelComponent::Function(Box::new(self.torus())),
            _ => with_operation!(self, operation => ModelComponent::Operation(Box::new(operation)))
                .expect("every other kind is an operation"),
        }
    }

    pub fn add_function(
        &self,
        model: &mut ImplicitModel<f64>,
        tag: &str,
    ) -> Option<Result<String, ModelError>> {
        match self.kind {
            "sphere" => Some(model.add_function(tag, self.sphere())),
            "torus" => Some(model.add_function(tag, self.torus())),
            _ => None,
        }
    }

    pub fn add_operation(
        &self,
        model: &mut ImplicitModel<f64>,
        tag: &str,
        inputs: Option<&[&str]>,
    ) -> Option<Result<String, ModelError>> {
        with_operation!(self, operation => model.add_operation(tag, operation, inputs))
    }
}

/// The kind and the numbers of a component, by the Rust's own name and parameters (which come in the protocol's sequence).
pub fn component_words(component: &ModelComponent<f64>) -> Vec<String> {
    let kind = match component.type_name() {
        "Constant" => "constant",
        "Sphere" => "sphere",
        "Torus" => "torus",
        operation => operation,
    };
    let mut words = vec![kind.to_string()];
    for (_, data) in component.read_parameters() {
        match data {
            Data::Value(v) => words.push(number_word(v)),
            Data::Vec3(v) => words.extend([v.x, v.y, v.z].map(number_word)),
            _ => unreachable!("no component of these kinds has other data"),
        }
    }
    words
}
