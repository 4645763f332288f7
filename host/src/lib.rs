//! The form model for a host program in Rust: a safe side over the proved static library.
//!
//! [`Model`] has the calls by the names of the Rust original, on `&str` tags and `f64` numbers. Below it [`ModelBytes`]
//! takes tags of any bytes, and [`ffi`] has the calls as docs/ABI.md lists them. Each call that the library refuses is an
//! [`Err`] of a [`Refusal`], and changes nothing.
#![deny(unsafe_code)]

pub mod bytes;
pub mod component;
pub mod console;
pub mod edit;
pub mod ffi;
pub mod geometry;
pub mod layout;
pub mod model;
pub mod parameter;
pub mod record;
pub mod refusal;
pub mod report;
pub mod screen;
pub mod words;

pub use bytes::ModelBytes;
pub use component::{Component, Function, Operation};
pub use edit::Edit;
pub use geometry::{Sphere, Torus, Vec3};
pub use model::Model;
pub use parameter::{Data, DataType, Parameter};
pub use refusal::{Reason, Refusal};
