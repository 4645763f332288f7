//! Each call on a full model, on the ways through it that go deepest.
use dotterelwire::component::{kind, Row};
use dotterelwire::edit::rows;
use dotterelwire::ffi;
use dotterelwire::{Data, Edit, ModelBytes};

/// A call by its name, run on a model of its own.
pub type Call = (&'static str, fn(&mut [u8]) -> u32);

fn offset() -> Row {
    Row::new(kind::OFFSET, &[1.0])
}

/// 63 operations in a chain over a constant, and 128 lists; there is room for one component more.
pub fn full() -> Vec<u8> {
    let mut model = ModelBytes::new();
    let _ = model.add_constant(b"0", 1.0);
    for i in 1..63 {
        let (tag, before) = (i.to_string(), (i - 1).to_string());
        let _ = model.add_operation(tag.as_bytes(), offset(), Some(&[before.as_bytes()]));
    }
    for i in 0..65 {
        let tag = format!("gone{i}");
        let _ = model.add_operation(tag.as_bytes(), offset(), Some(&[b"62"]));
        let _ = model.remove_component(tag.as_bytes());
    }
    model.as_bytes().to_vec()
}

/// A list of each of the nine edits.
fn edits() -> Vec<u8> {
    rows(&[
        Edit::add_operation("gone1", offset(), Some(&[b"5"])),
        Edit::remove_component("gone1"),
        Edit::add_constant("c", 1.0),
        Edit::remove_component("c"),
        Edit::add_function("s", Row::new(kind::SPHERE, &[0.0, 0.0, 0.0, 1.0])),
        Edit::remove_component("s"),
        Edit::add_component("gone2", offset()),
        Edit::remove_component("gone2"),
        Edit::add_component("fresh", offset()),
        Edit::remove_component("fresh"),
        Edit::add_component("gone2", offset()),
        Edit::add_input("gone2", "62", 0),
        Edit::remove_input("gone2", 0),
        Edit::rename_component("61", "renamed"),
        Edit::set_parameter("renamed", "Distance", Data::Value(2.0)),
    ])
}

pub const CALLS: [Call; 22] = [
    ("dw_new", |m| ffi::new(m, &mut [0; 64])),
    ("dw_add_constant", |m| ffi::add_constant(m, b"more", 0, &mut [0; 64])),
    ("dw_add_function", |m| ffi::add_function(m, b"more", kind::SPHERE, 0, 0, 0, 0, 0, &mut [0; 64])),
    ("dw_add_operation", |m| {
        ffi::add_operation(m, b"gone3", kind::OFFSET, 0, 0, 0, 0, 0, 2, b"62", b"", b"", &mut [0; 64])
    }),
    ("dw_add_component", |m| ffi::add_component(m, b"gone5", kind::OFFSET, 0, 0, 0, 0, 0, &mut [0; 64])),
    ("dw_add_input", |m| ffi::add_input(m, b"1", b"62", 0, &mut [0; 64])),
    ("dw_remove_input", |m| ffi::remove_input(m, b"62", 0, &mut [0; 64])),
    ("dw_remove_component", |m| ffi::remove_component(m, b"62", &mut [0; 64])),
    ("dw_rename_component", |m| ffi::rename_component(m, b"62", b"gone4", &mut [0; 64])),
    ("dw_set_parameter", |m| ffi::set_parameter(m, b"62", b"Distance", 0, 0, 0, 0, &mut [0; 64])),
    ("dw_evaluate_after", |m| ffi::evaluate_after(m, &edits(), b"62", 0, 0, 0, &mut [0; 64])),
    ("dw_check", |m| ffi::check(m, &mut [0; 64])),
    ("dw_compile", |m| ffi::compile(m, b"62", &mut vec![0; 2560], &mut [0; 64])),
    ("dw_evaluate_at", |m| ffi::evaluate_at(m, b"62", 0, 0, 0, &mut [0; 64])),
    ("dw_default", |m| ffi::default(m, &mut [0; 64])),
    ("dw_component_at", |m| ffi::component_at(m, 62, &mut [0; 48], &mut [0; 64])),
    ("dw_get_component", |m| ffi::get_component(m, b"62", &mut [0; 48], &mut [0; 64])),
    ("dw_list_at", |m| ffi::list_at(m, 127, &mut [0; 120], &mut [0; 64])),
    ("dw_get_inputs", |m| ffi::get_inputs(m, b"62", &mut [0; 120], &mut [0; 64])),
    ("dw_read_parameter", |m| ffi::read_parameter(m, b"62", b"Distance", &mut [0; 24], &mut [0; 64])),
    ("dw_type_name", |_| ffi::type_name(kind::THICKNESS, &mut [0; 64])),
    ("dw_parameter", |_| ffi::parameter(kind::REMAP, 3, &mut [0; 64])),
];
