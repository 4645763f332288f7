//! Each size at its edge: what just fits, and what is one more.
mod common;

use common::{constant, full, offset};
use dotterelwire::bytes::ModelBytes;
use dotterelwire::component::{kind, Row};
use dotterelwire::edit::{rows, EDIT_SIZE};
use dotterelwire::ffi;
use dotterelwire::layout::{word, COMPONENTS, LISTS, MODEL_SIZE};
use dotterelwire::{Edit, Vec3};

const SPHERE: Row = Row { kind: kind::SPHERE, numbers: [0; 5] };

#[test]
fn tags_of_0_and_32_bytes_are_taken() {
    let mut model = ModelBytes::new();
    assert_eq!(model.add_constant(&[], 1.0), Ok(vec![]));
    assert_eq!(model.add_constant(&[0xff; 32], 1.0), Ok(vec![0xff; 32]));
    assert_eq!(model.add_constant(&[0xff; 33], 1.0).unwrap_err().number, 1);
    assert_eq!(model.add_constant(&vec![1; 100_000], 1.0).unwrap_err().number, 1);
    assert_eq!(model.compile(&[]), Ok(vec![vec![]]));
}

#[test]
fn a_numbered_tag_of_32_bytes_is_made() {
    let mut model = ModelBytes::new();
    let base = [b'x'; 30];
    model.add_constant(&base, 1.0).unwrap();
    let made = model.add_component(&base, constant(2.0)).unwrap();
    assert_eq!(made, [&base[..], b"_1"].concat());
    for i in 2..10 {
        let made = model.add_component(&base, constant(2.0)).unwrap();
        assert_eq!(made, [&base[..], format!("_{i}").as_bytes()].concat());
    }
    // the tenth would have 33 bytes
    assert_eq!(model.add_component(&base, constant(2.0)).unwrap_err().number, 17);
}

#[test]
fn sixty_four_components_and_128_lists() {
    let model = full();
    assert_eq!(model.components().unwrap().len(), COMPONENTS);
    assert_eq!(model.lists().unwrap().len(), LISTS);
    assert_eq!(model.component_at(COMPONENTS), Ok(None));
    assert_eq!(model.list_at(LISTS), Ok(None));
    assert_eq!(model.component_at(usize::MAX), Ok(None));
    assert_eq!(model.list_at(usize::MAX), Ok(None));
}

/// The longest form: 64 components, each wired to the one before.
#[test]
fn an_order_of_64() {
    let mut model = ModelBytes::new();
    model.add_constant(b"0", 64.0).unwrap();
    for i in 1..64 {
        let (tag, before) = (i.to_string(), (i - 1).to_string());
        let row = Row::new(kind::OFFSET, &[1.0]);
        model.add_operation(tag.as_bytes(), row, Some(&[before.as_bytes()])).unwrap();
    }
    let order: Vec<Vec<u8>> = (0..64).map(|i| i.to_string().into_bytes()).collect();
    assert_eq!(model.compile(b"63"), Ok(order));
    assert_eq!(model.evaluate_at(b"63", Vec3::origin()), Ok(1.0));
}

/// A slice of another length than a model's is no model, and is left alone.
#[test]
fn models_of_another_length_are_7() {
    for length in [0, 1, 8, 63, 64, MODEL_SIZE - 1, MODEL_SIZE + 1, 2 * MODEL_SIZE] {
        let mut bytes = vec![0; length];
        if let Some(first) = bytes.first_mut() {
            *first = 1;
        }
        let before = bytes.clone();
        let out = &mut [0xaa; 64];
        assert_eq!(ffi::new(&mut bytes, out), 7);
        assert_eq!((word(out, 0), word(out, 16), word(out, 56)), (7, 0, 0));
        assert_eq!(ffi::check(&bytes, out), 7);
        assert_eq!(ffi::add_constant(&mut bytes, b"a", 0, out), 7);
        assert_eq!(ffi::evaluate_after(&mut bytes, &[], b"a", 0, 0, 0, out), 7);
        assert_eq!(ffi::evaluate_at(&bytes, b"a", 0, 0, 0, out), 7);
        assert!(bytes == before);
    }
}

/// A new model is its header; the rows, none of which counts, are left alone.
#[test]
fn a_new_model_over_whatever_stands_there() {
    let mut bytes = [0xaa; MODEL_SIZE];
    assert_eq!(ffi::new(&mut bytes, &mut []), 0);
    assert!(bytes[..64] == ModelBytes::new().as_bytes()[..64]);
    assert!(bytes[64..].iter().all(|b| *b == 0xaa));
    let model = ModelBytes::from(bytes);
    assert_eq!(model.components(), Ok(vec![]));
    assert_eq!(model.lists(), Ok(vec![]));
    assert_eq!(model.default_output(), Ok(None));
}

/// The first 64 bytes of a report are written, taken or refused; a shorter one and what is behind are left alone.
#[test]
fn reports_of_every_length() {
    let model = ModelBytes::new();
    for length in [0, 1, 63, 64, 65, 200] {
        for (tag, code) in [(&b"wall"[..], 0), (&[b'x'; 33][..], 1)] {
            let (mut bytes, mut out) = (*model.as_bytes(), vec![0xaa; length]);
            assert_eq!(ffi::add_constant(&mut bytes, tag, 0, &mut out), code);
            let written = if length < 64 { 0 } else { 64 };
            assert!(out[written..].iter().all(|b| *b == 0xaa), "{length}");
            if written == 64 {
                let held = if code == 0 { tag } else { b"" };
                let row = [held, &[0; 32][held.len()..]].concat();
                assert_eq!((word(&out, 0), word(&out, 8)), (u64::from(code), 0));
                assert_eq!((word(&out, 16), word(&out, 56)), (held.len() as u64, 0));
                assert_eq!(out[24..56], row);
            }
            assert_eq!(bytes != *model.as_bytes(), code == 0);
        }
    }
}

/// What is read into is written where it has the size, and no further than what there is to write.
#[test]
fn slices_to_read_into_of_every_length() {
    let mut model = ModelBytes::new();
    model.add_function(b"s", SPHERE).unwrap();
    model.add_operation(b"o", offset(), Some(&[b"s"])).unwrap();
    let bytes = model.as_bytes();
    let out = &mut [0; 64];
    for length in [0, 23, 24, 25, 47, 48, 49, 119, 120, 121, 2559, 2560, 2561] {
        let mut into = vec![0xaa; length];
        let written = |into: &[u8]| into.iter().filter(|b| **b != 0xaa).count();
        let mut lent = |size: usize, most: usize, call: &mut dyn FnMut(&mut [u8])| {
            into.fill(0xaa);
            call(&mut into);
            assert_eq!(written(&into), if length < size { 0 } else { most }, "{length} {size}");
            assert!(into.iter().skip(most).all(|b| *b == 0xaa));
        };
        lent(2560, 80, &mut |into| assert_eq!(ffi::compile(bytes, b"o", into, out), 0));
        assert_eq!(word(out, 56), 2);
        lent(2560, 0, &mut |into| assert_eq!(ffi::compile(bytes, b"x", into, out), 12));
        assert_eq!(word(out, 56), 0);
        lent(48, 48, &mut |into| assert_eq!(ffi::component_at(bytes, 0, into, out), 0));
        lent(48, 48, &mut |into| assert_eq!(ffi::get_component(bytes, b"o", into, out), 0));
        lent(48, 0, &mut |into| assert_eq!(ffi::get_component(bytes, b"x", into, out), 0));
        lent(120, 120, &mut |into| assert_eq!(ffi::list_at(bytes, 0, into, out), 0));
        lent(120, 120, &mut |into| assert_eq!(ffi::get_inputs(bytes, b"o", into, out), 0));
        lent(120, 0, &mut |into| assert_eq!(ffi::get_inputs(bytes, b"s", into, out), 0));
        lent(24, 24, &mut |into| assert_eq!(ffi::read_parameter(bytes, b"s", b"Centre", into, out), 0));
        lent(24, 24, &mut |into| assert_eq!(ffi::read_parameter(bytes, b"s", b"Radius", into, out), 0));
    }
}

#[test]
fn lists_of_edits_are_whole_rows() {
    let mut model = ModelBytes::new();
    model.add_constant(b"a", 1.0).unwrap();
    let two = rows(&[Edit::add_constant("b", 2.0), Edit::add_constant("c", 3.0)]);
    assert_eq!(two.len(), 2 * EDIT_SIZE);
    for length in [1, 255, 257, 511] {
        let refusal = model.evaluate_after(&two[..length], b"a", Vec3::origin()).unwrap_err();
        assert_eq!(refusal.number, 7);
    }
    assert_eq!(model.evaluate_after(&two[..256], b"b", Vec3::origin()), Ok(2.0));
    assert_eq!(model.get_component(b"c"), Ok(None));
    // a tag past the room of a row is refused like every one that is too long
    let long = rows(&[Edit::add_constant([b'x'; 500], 2.0)]);
    assert_eq!(model.evaluate_after(&long, b"a", Vec3::origin()), Ok(1.0));
    assert_eq!(model.components().map(|table| table.len()), Ok(2));
}

#[test]
fn places_at_their_edge() {
    let mut model = ModelBytes::new();
    model.add_constant(b"a", 1.0).unwrap();
    for (row, count) in [(kind::OFFSET, 1), (kind::BOOLEAN_UNION, 2), (kind::VARIABLE_LERP, 3)] {
        let tag = model.add_component(b"o", Row { kind: row, numbers: [0; 5] }).unwrap();
        assert_eq!(model.add_input(&tag, b"a", count - 1), Ok(()));
        assert_eq!(model.add_input(&tag, b"a", count).unwrap_err().number, 3);
        assert_eq!(model.remove_input(&tag, count - 1), Ok(()));
        assert_eq!(model.remove_input(&tag, count).unwrap_err().number, 3);
    }
}

/// Kinds and parameters by number, to the end and past it.
#[test]
fn names_past_the_end() {
    let out = &mut [0; 64];
    for kind in [kind::COUNT, 100, u64::MAX] {
        assert_eq!(ffi::type_name(kind, out), 0);
        assert_eq!((word(out, 16), word(out, 56)), (0, 0));
        assert_eq!(ffi::parameter(kind, 0, out), 0);
        assert_eq!((word(out, 16), word(out, 56)), (0, 0));
    }
    for index in [4, u64::MAX] {
        assert_eq!(ffi::parameter(kind::REMAP, index, out), 0);
        assert_eq!((word(out, 16), word(out, 56)), (0, 0));
    }
}
