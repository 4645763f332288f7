//! The Rust's own calls, on the same forms.
use imlet::types::computation::model::{open, Data, ImplicitModel, ModelComponent};
use imlet::types::computation::operations::shape::{BooleanDifference, BooleanUnion, Offset};
use imlet::types::geometry::{Sphere, Torus, Vec3};

pub struct Theirs(pub ImplicitModel<f64>);

impl Theirs {
    pub fn new() -> Self {
        Theirs(ImplicitModel::new())
    }

    pub fn add_constant(&mut self, t: &str, v: f64) -> bool {
        self.0.add_constant(t, v).is_ok()
    }

    pub fn add_sphere(&mut self, t: &str, k: [f64; 5]) -> bool {
        self.0.add_function(t, Sphere::new(Vec3::new(k[0], k[1], k[2]), k[3])).is_ok()
    }

    pub fn add_torus(&mut self, t: &str, k: [f64; 5]) -> bool {
        self.0.add_function(t, Torus::new(Vec3::new(k[0], k[1], k[2]), k[3], k[4])).is_ok()
    }

    pub fn add_union(&mut self, t: &str, inputs: &[&str]) -> bool {
        self.0.add_operation(t, BooleanUnion::new(), Some(inputs)).is_ok()
    }

    pub fn add_difference(&mut self, t: &str, inputs: &[&str]) -> bool {
        self.0.add_operation(t, BooleanDifference::new(), Some(inputs)).is_ok()
    }

    pub fn add_component(&mut self, t: &str, distance: f64) -> bool {
        open::add_component(&mut self.0, t, ModelComponent::Operation(Box::new(Offset::new(distance)))).is_ok()
    }

    pub fn add_input(&mut self, t: &str, s: &str, i: usize) -> bool {
        self.0.add_input(t, s, i).is_ok()
    }

    pub fn remove_input(&mut self, t: &str, i: usize) -> bool {
        self.0.remove_input(t, i).is_ok()
    }

    pub fn remove_component(&mut self, t: &str) -> bool {
        self.0.remove_component(t).is_ok()
    }

    pub fn rename_component(&mut self, t: &str, u: &str) -> bool {
        open::rename_component(&mut self.0, t, u).is_ok()
    }

    pub fn set_value(&mut self, t: &str, name: &str, v: f64) -> bool {
        match self.0.get_component_mut(t) {
            Some(c) => {
                c.set_parameter(name, Data::Value(v));
                true
            }
            None => false,
        }
    }

    pub fn compile(&self, t: &str) -> bool {
        open::compiles(&self.0, t)
    }

    pub fn evaluate_at(&self, t: &str, p: [f64; 3]) -> Option<f64> {
        self.0.evaluate_at(t, p[0], p[1], p[2]).ok()
    }
}
