//! What a screen shows of a component and of a model.
use crate::bytes::{text, ModelBytes, Places};
use crate::component::Component;
use crate::ffi;
use crate::geometry::Vec3;
use crate::parameter::{Data, DataType, Parameter};
use crate::record::Record;
use crate::refusal::Refusal;
use crate::report::reported;
use std::fmt::Write;

impl Component {
    /// The type of the function or operation.
    pub fn type_name(&self) -> Result<String, Refusal> {
        let report = reported(|out| ffi::type_name(self.row().kind, out))?;
        Ok(text(report.tag))
    }

    /// How many inputs it takes.
    pub fn input_count(&self) -> Result<usize, Refusal> {
        let report = reported(|out| ffi::type_name(self.row().kind, out))?;
        Ok((report.number as usize).saturating_sub(1))
    }

    pub fn parameters(&self) -> Result<Vec<Parameter>, Refusal> {
        let kind = self.row().kind;
        (0..).map(|index| parameter(kind, index)).map_while(Result::transpose).collect()
    }

    /// The parameters with their data: the component's numbers, in their sequence.
    pub fn read_parameters(&self) -> Result<Vec<(Parameter, Data)>, Refusal> {
        let mut numbers = self.row().numbers.into_iter().map(f64::from_bits);
        let mut number = || numbers.next().unwrap_or_default();
        let mut read = |parameter: Parameter| match parameter.data_type {
            DataType::Value => (parameter, Data::Value(number())),
            DataType::Vec3 => (parameter, Data::Vec3(Vec3::new(number(), number(), number()))),
        };
        Ok(self.parameters()?.into_iter().map(&mut read).collect())
    }
}

fn parameter(kind: u64, index: u64) -> Result<Option<Parameter>, Refusal> {
    let report = reported(|out| ffi::parameter(kind, index, out))?;
    let data_type = DataType::reported(report.number);
    Ok(data_type.map(|data_type| Parameter { name: text(report.tag), data_type }))
}

/// The components of a model, one after the other.
pub fn components(model: &ModelBytes) -> Result<String, Refusal> {
    let record = Record::of(model)?;
    let mut shown = String::new();
    for (tag, row) in record.components {
        let inputs = model.get_inputs(&tag)?.unwrap_or_default();
        if let Some(component) = Component::of(&row) {
            let _ = writeln!(shown, "Component: {}", text(tag));
            shown += &described(&component, inputs)?;
        }
    }
    Ok(shown)
}

fn described(component: &Component, inputs: Places) -> Result<String, Refusal> {
    let mut shown = format!("Type: {}\n", component.type_name()?);
    for (parameter, data) in component.read_parameters()? {
        let _ = writeln!(shown, "- {}: {data}", parameter.name);
    }
    for (i, input) in inputs.into_iter().enumerate() {
        let _ = writeln!(shown, "- input {i}: {}", input.map_or("not wired".to_string(), text));
    }
    shown.push('\n');
    Ok(shown)
}
