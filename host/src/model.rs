//! The model with the calls of the Rust original, by its names.
use crate::bytes::{text, ModelBytes};
use crate::component::{Component, Function, Operation};
use crate::edit::{rows, Edit};
use crate::geometry::Vec3;
use crate::layout::{count, MODEL_SIZE};
use crate::parameter::Data;
use crate::record::Record;
use crate::refusal::Refusal;
use crate::screen;
use std::fmt::{self, Display, Formatter};

/// A sound model: components and input lists, found by tag, and a default.
///
/// ```
/// use dotterelwire::{Model, Operation, Refusal, Sphere, Torus, Vec3};
///
/// fn main() -> Result<(), Refusal> {
///     let mut model = Model::new();
///     let ball = model.add_function("ball", Sphere::new(Vec3::origin(), 1.0))?;
///     let ring = model.add_function("ring", Torus::new(Vec3::origin(), 5.0, 1.0))?;
///     let both = model.add_operation("both", Operation::BooleanUnion, Some(&[&ball, &ring]))?;
///     assert_eq!(model.evaluate_at(&both, 3.0, 0.0, 4.0)?, -1.0); // wall
///     assert_eq!(model.remove_component("bell").unwrap_err().number, 12);
///     Ok(())
/// }
/// ```
#[derive(Clone, Default)]
pub struct Model {
    bytes: ModelBytes,
}

impl Model {
    /// Create a new empty model.
    pub fn new() -> Model {
        Model::default()
    }

    /// The model that was kept in some bytes, where it is a sound one.
    pub fn from_bytes(bytes: &[u8; MODEL_SIZE]) -> Result<Model, Refusal> {
        let bytes = ModelBytes::from(*bytes);
        bytes.check()?;
        Ok(Model { bytes })
    }

    /// Whether two models hold the same components, lists and default, at any positions of their tables.
    pub fn is_same(&self, other: &Model) -> Result<bool, Refusal> {
        Ok(Record::of(&self.bytes)? == Record::of(&other.bytes)?)
    }

    /// The bytes to keep.
    pub fn as_bytes(&self) -> &[u8; MODEL_SIZE] {
        self.bytes.as_bytes()
    }

    /// Add a sphere or a torus.
    pub fn add_function(&mut self, tag: &str, function: impl Into<Function>) -> Result<String, Refusal> {
        self.bytes.add_function(tag.as_bytes(), function.into().row()).map(text)
    }

    /// Add an operation, optionally with inputs. Their number must match the operation's.
    pub fn add_operation(
        &mut self,
        tag: &str,
        operation: Operation,
        inputs: Option<&[&str]>,
    ) -> Result<String, Refusal> {
        let inputs: Option<Vec<&[u8]>> = inputs.map(|tags| tags.iter().map(|tag| tag.as_bytes()).collect());
        self.bytes.add_operation(tag.as_bytes(), operation.row(), inputs.as_deref()).map(text)
    }

    /// Add a tagged constant.
    pub fn add_constant(&mut self, tag: &str, value: f64) -> Result<String, Refusal> {
        self.bytes.add_constant(tag.as_bytes(), value).map(text)
    }

    /// Add a component under the tag, or under the first free numbered one. Answers the tag made.
    pub fn add_component(&mut self, tag: &str, component: impl Into<Component>) -> Result<String, Refusal> {
        self.bytes.add_component(tag.as_bytes(), component.into().row()).map(text)
    }

    /// Wire a source into a place of the target.
    pub fn add_input(&mut self, target: &str, source: &str, index: usize) -> Result<(), Refusal> {
        self.bytes.add_input(target.as_bytes(), source.as_bytes(), count(index))
    }

    /// Leave a place unassigned.
    pub fn remove_input(&mut self, component: &str, index: usize) -> Result<(), Refusal> {
        self.bytes.remove_input(component.as_bytes(), count(index))
    }

    /// Remove a component, and clear every place that names it.
    pub fn remove_component(&mut self, tag: &str) -> Result<(), Refusal> {
        self.bytes.remove_component(tag.as_bytes())
    }

    /// Give a component another tag, in every place that names it too.
    pub fn rename_component(&mut self, current_tag: &str, new_tag: &str) -> Result<String, Refusal> {
        self.bytes.rename_component(current_tag.as_bytes(), new_tag.as_bytes()).map(text)
    }

    /// Set a parameter of a component.
    pub fn set_parameter(&mut self, tag: &str, parameter_name: &str, data: Data) -> Result<(), Refusal> {
        self.bytes.set_parameter(tag.as_bytes(), parameter_name.as_bytes(), data.row())
    }

    /// Run a list of edits and ask the form, under its newest tag. A refused edit of the list changes nothing, and the next
    /// one is run; where the asking is refused, the whole list changes nothing.
    pub fn evaluate_after(&mut self, edits: &[Edit], target: &str, x: f64, y: f64, z: f64) -> Result<f64, Refusal> {
        self.bytes.evaluate_after(&rows(edits), target.as_bytes(), Vec3::new(x, y, z))
    }
}

/// What only reads.
impl Model {
    /// Get all the components and their tags, in the sequence of the table.
    pub fn all_components(&self) -> Result<Vec<(String, Component)>, Refusal> {
        let rows = self.bytes.components()?.into_iter();
        Ok(rows.filter_map(|(tag, row)| Some((text(tag), Component::of(&row)?))).collect())
    }

    /// Get a component by its tag.
    pub fn get_component(&self, tag: &str) -> Result<Option<Component>, Refusal> {
        let row = self.bytes.get_component(tag.as_bytes())?;
        Ok(row.and_then(|row| Component::of(&row)))
    }

    /// Get the default output: the last added component, if it is still there.
    pub fn get_default_output(&self) -> Result<Option<String>, Refusal> {
        Ok(self.bytes.default_output()?.map(text))
    }

    /// Get what is wired into a tag's places; none where it has no list.
    pub fn get_inputs(&self, tag: &str) -> Result<Option<Vec<Option<String>>>, Refusal> {
        let places = self.bytes.get_inputs(tag.as_bytes())?;
        Ok(places.map(|places| places.into_iter().map(|place| place.map(text)).collect()))
    }

    /// Read a parameter of a component; none where it has no such one.
    pub fn read_parameter(&self, tag: &str, parameter_name: &str) -> Result<Option<Data>, Refusal> {
        let (number, words) = self.bytes.read_parameter(tag.as_bytes(), parameter_name.as_bytes())?;
        Ok(Data::read(number, words))
    }

    /// The order in which a form is worked: inputs ahead of users, the target last.
    pub fn compile(&self, target: &str) -> Result<Vec<String>, Refusal> {
        Ok(self.bytes.compile(target.as_bytes())?.into_iter().map(text).collect())
    }

    /// The form's number at a point: negative is wall, positive is air.
    pub fn evaluate_at(&self, output: &str, x: f64, y: f64, z: f64) -> Result<f64, Refusal> {
        self.bytes.evaluate_at(output.as_bytes(), Vec3::new(x, y, z))
    }
}

/// Each component with its type, its parameters and its inputs, in ascending tag order.
impl Display for Model {
    fn fmt(&self, f: &mut Formatter) -> fmt::Result {
        let shown = screen::components(&self.bytes).map_err(|_| fmt::Error)?;
        f.write_str(&shown)
    }
}
