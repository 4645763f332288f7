//! The Rust original, compiled from its unchanged files in `original/`, and what those files lean on that is not there.
//! Each file is included in a module of ours, so that a child module (ours too) reaches its private fields.

/// Stub of the crate's version. A model stores it in its private field `version`, which nothing reads.
pub const IMLET_VERSION: &str = "8e8b708a30";

pub mod utils {
    pub mod math_helper {
        /// Stub: a bound of ModelFloat. Its number is asked for by periodic functions only, which are not compiled here.
        pub trait Pi {}
        impl Pi for f64 {}
    }
}

#[allow(mismatched_lifetime_syntaxes)]
pub mod types {
    pub mod computation {
        pub mod model {
            mod computation_graph {
                include!("../original/src/types/computation/model/computation_graph.rs");

                /// Ours: the components of a compiled graph, in its order.
                pub(crate) fn components<'a, T: ModelFloat>(
                    graph: ComputationGraph<'a, T>,
                ) -> Vec<&'a ModelComponent<T>> {
                    graph.components
                }
            }
            mod implicit_model {
                include!("../original/src/types/computation/model/implicit_model.rs");

                /// Ours: the private tables and calls of a model.
                pub mod open {
                    include!("open.rs");
                }
            }
            mod model_component {
                include!("../original/src/types/computation/model/model_component.rs");
            }
            mod parameter {
                include!("../original/src/types/computation/model/parameter.rs");
            }

            pub(crate) use computation_graph::{components, ComputationGraph};
            pub use implicit_model::{open, ImplicitModel};
            pub use model_component::ModelComponent;
            pub(crate) use model_component::{ComponentId, ComponentValues};
            pub use parameter::{Data, DataType, Parameter};
        }
        mod model_error {
            include!("../original/src/types/computation/model_error.rs");
        }
        pub mod operations {
            pub mod math {
                include!("../original/src/types/computation/operations/math.rs");

                /// Ours: a Lerp of any factor. The Rust's `new` fixes one half, and its setter clamps.
                pub fn lerp(factor: f64) -> Lerp<f64> {
                    Lerp { factor }
                }
            }
            pub mod shape {
                include!("../original/src/types/computation/operations/shape.rs");
            }
        }
        pub mod traits {
            include!("../original/src/types/computation/traits/mod.rs");
        }

        pub use model_error::ModelError;
    }

    pub mod geometry {
        mod sphere {
            include!("../original/src/types/geometry/sphere.rs");
        }
        mod torus {
            include!("../original/src/types/geometry/torus.rs");
        }
        mod vec3f {
            include!("../original/src/types/geometry/vec3f.rs");
        }

        pub use sphere::Sphere;
        pub use torus::Torus;
        pub use vec3f::Vec3;

        pub mod traits {
            /// Stub: Sphere offers its distance under this name too. A model asks `ImplicitFunction::eval`.
            pub trait SignedDistance<T> {
                fn signed_distance(&self, x: T, y: T, z: T) -> T;
            }
        }

        /// Stub: what `Sphere::bounds` answers. A model never asks for bounds.
        pub struct BoundingBox<T> {
            pub min: Vec3<T>,
            pub max: Vec3<T>,
        }

        impl<T> BoundingBox<T> {
            pub fn new(min: Vec3<T>, max: Vec3<T>) -> Self {
                Self { min, max }
            }
        }

        /// Stub: what `Vec3::transform` takes. Transforming is outside the port, and nothing here calls it.
        pub struct Transform<T> {
            pub rotation: Vec3<T>,
            pub translation: Vec3<T>,
        }
    }
}
