//! Every refusal, with what it carries; each leaves the model as it was.
mod common;

use common::{constant, full, offset};
use dotterelwire::bytes::ModelBytes;
use dotterelwire::component::{kind, Row};
use dotterelwire::parameter::DataRow;
use dotterelwire::{Data, Reason, Refusal, Vec3};

const LONG: &[u8] = b"a tag of thirty-three bytes, alas";

fn add() -> Row {
    Row::new(kind::ADD, &[])
}

fn value(v: f64) -> DataRow {
    Data::Value(v).row()
}

/// Constants a and b, and the sum of both.
fn sum() -> ModelBytes {
    let mut model = ModelBytes::new();
    model.add_constant(b"a", 1.0).unwrap();
    model.add_constant(b"b", 2.0).unwrap();
    model.add_operation(b"sum", add(), Some(&[b"a", b"b"])).unwrap();
    model
}

/// Checks that a call is refused so, and that the model is as it was.
fn refused<A>(
    model: &ModelBytes,
    number: u32,
    tag: &[u8],
    index: u64,
    call: impl FnOnce(&mut ModelBytes) -> Result<A, Refusal>,
) {
    let mut after = model.clone();
    let refusal = call(&mut after).err().expect("the call was taken");
    let wanted = Refusal { number, tag: tag.to_vec(), index };
    assert_eq!(refusal, wanted);
    assert!(after == *model, "a refused call changed the model");
}

#[test]
fn a_long_tag_is_1_in_every_call() {
    let m = sum();
    assert_eq!(LONG.len(), 33);
    refused(&m, 1, b"", 0, |m| m.add_constant(LONG, 1.0));
    refused(&m, 1, b"", 0, |m| m.add_function(LONG, Row::new(kind::SPHERE, &[])));
    refused(&m, 1, b"", 0, |m| m.add_operation(LONG, add(), None));
    refused(&m, 1, b"", 0, |m| m.add_operation(b"o", add(), Some(&[b"a", LONG])));
    refused(&m, 1, b"", 0, |m| m.add_operation(b"o", add(), Some(&[b"a", b"b", LONG])));
    refused(&m, 1, b"", 0, |m| m.add_component(LONG, add()));
    refused(&m, 1, b"", 0, |m| m.add_input(LONG, b"a", 0));
    refused(&m, 1, b"", 0, |m| m.add_input(b"sum", LONG, 0));
    refused(&m, 1, b"", 0, |m| m.remove_input(LONG, 0));
    refused(&m, 1, b"", 0, |m| m.remove_component(LONG));
    refused(&m, 1, b"", 0, |m| m.rename_component(LONG, b"c"));
    refused(&m, 1, b"", 0, |m| m.rename_component(b"a", LONG));
    refused(&m, 1, b"", 0, |m| m.set_parameter(LONG, b"x", value(1.0)));
    refused(&m, 1, b"", 0, |m| m.evaluate_after(&[], LONG, Vec3::origin()));
    refused(&m, 1, b"", 0, |m| m.compile(LONG));
    refused(&m, 1, b"", 0, |m| m.evaluate_at(LONG, Vec3::origin()));
    refused(&m, 1, b"", 0, |m| m.get_component(LONG));
    refused(&m, 1, b"", 0, |m| m.get_inputs(LONG));
    refused(&m, 1, b"", 0, |m| m.read_parameter(LONG, b"x"));
}

#[test]
fn another_count_of_inputs_is_2() {
    let m = sum();
    refused(&m, 2, b"o", 0, |m| m.add_operation(b"o", add(), Some(&[])));
    refused(&m, 2, b"o", 0, |m| m.add_operation(b"o", add(), Some(&[b"a"])));
    refused(&m, 2, b"o", 0, |m| m.add_operation(b"o", add(), Some(&[b"a", b"b", b"a"])));
    // a fourth input is never read
    refused(&m, 2, b"o", 0, |m| m.add_operation(b"o", add(), Some(&[b"a", b"b", b"a", LONG])));
}

#[test]
fn an_index_past_the_list_is_3() {
    let m = sum();
    refused(&m, 3, b"sum", 2, |m| m.add_input(b"sum", b"a", 2));
    refused(&m, 3, b"sum", u64::MAX, |m| m.add_input(b"sum", b"a", u64::MAX));
    refused(&m, 3, b"sum", 2, |m| m.remove_input(b"sum", 2));
    refused(&m, 3, b"sum", 1 << 32, |m| m.remove_input(b"sum", 1 << 32));
}

#[test]
fn what_does_not_fit_is_4() {
    let mut m = sum();
    m.add_function(b"s", Row::new(kind::SPHERE, &[0.0, 0.0, 0.0, 1.0])).unwrap();
    let boolean = Data::Boolean(true).row();
    refused(&m, 4, b"s", 0, |m| m.set_parameter(b"s", b"radius", value(1.0)));
    refused(&m, 4, b"s", 0, |m| m.set_parameter(b"s", b"Centre", value(1.0)));
    refused(&m, 4, b"s", 0, |m| m.set_parameter(b"s", b"Radius", boolean));
    refused(&m, 4, b"a", 0, |m| m.set_parameter(b"a", b"any", boolean));
    refused(&m, 4, b"sum", 0, |m| m.set_parameter(b"sum", b"", value(1.0)));
    let no_data = DataRow { kind: 3, numbers: [0; 3] };
    refused(&m, 4, b"a", 0, |m| m.set_parameter(b"a", b"any", no_data));
    for (row, number) in [(constant(1.0), 4), (add(), 4)] {
        refused(&m, number, b"n", 0, |m| m.add_function(b"n", row));
    }
    for none in [kind::COUNT, u64::MAX, 1 << 32] {
        let row = Row { kind: none, numbers: [0; 5] };
        refused(&m, 4, b"n", 0, |m| m.add_function(b"n", row));
        refused(&m, 4, b"n", 0, |m| m.add_component(b"n", row));
        refused(&m, 4, b"n", 0, |m| m.add_operation(b"n", row, None));
        refused(&m, 1, b"", 0, |m| m.add_operation(LONG, row, None));
    }
    for row in [constant(1.0), Row::new(kind::TORUS, &[])] {
        refused(&m, 4, b"a", 0, |m| m.add_operation(b"a", row, None));
    }
}

#[test]
fn a_limit_on_its_partner_is_5() {
    let mut m = ModelBytes::new();
    m.add_operation(b"r", Row::new(kind::REMAP, &[0.0, 1.0, 0.0, 1.0]), None).unwrap();
    let near = f64::EPSILON / 2.0;
    refused(&m, 5, b"r", 0, |m| m.set_parameter(b"r", b"FromMin", value(1.0)));
    refused(&m, 5, b"r", 0, |m| m.set_parameter(b"r", b"FromMax", value(near)));
    refused(&m, 5, b"r", 0, |m| m.set_parameter(b"r", b"ToMin", value(1.0)));
    refused(&m, 5, b"r", 0, |m| m.set_parameter(b"r", b"ToMax", value(-near)));
    m.set_parameter(b"r", b"ToMax", value(f64::EPSILON)).unwrap();
}

/// Bytes that are no sound model are 7 in every call, before all else.
#[test]
fn no_sound_model_is_7_in_every_call() {
    let mut bytes = *sum().as_bytes();
    bytes[8] = 65;
    let m = ModelBytes::from(bytes);
    refused(&m, 7, b"", 0, |m| m.add_constant(LONG, 1.0));
    refused(&m, 7, b"", 0, |m| m.add_function(LONG, add()));
    refused(&m, 7, b"", 0, |m| m.add_operation(LONG, constant(1.0), None));
    refused(&m, 7, b"", 0, |m| m.add_component(LONG, add()));
    refused(&m, 7, b"", 0, |m| m.add_input(LONG, b"a", 0));
    refused(&m, 7, b"", 0, |m| m.remove_input(LONG, 0));
    refused(&m, 7, b"", 0, |m| m.remove_component(LONG));
    refused(&m, 7, b"", 0, |m| m.rename_component(LONG, b"c"));
    refused(&m, 7, b"", 0, |m| m.set_parameter(LONG, b"x", value(1.0)));
    refused(&m, 7, b"", 0, |m| m.evaluate_after(&[], LONG, Vec3::origin()));
    refused(&m, 7, b"", 0, |m| m.check());
    refused(&m, 7, b"", 0, |m| m.compile(LONG));
    refused(&m, 7, b"", 0, |m| m.evaluate_at(LONG, Vec3::origin()));
    refused(&m, 7, b"", 0, |m| m.default_output());
    refused(&m, 7, b"", 0, |m| m.component_at(200));
    refused(&m, 7, b"", 0, |m| m.get_component(LONG));
    refused(&m, 7, b"", 0, |m| m.list_at(200));
    refused(&m, 7, b"", 0, |m| m.get_inputs(LONG));
    refused(&m, 7, b"", 0, |m| m.read_parameter(LONG, b"x"));
    refused(&m, 7, b"", 0, |m| m.components());
    refused(&m, 7, b"", 0, |m| m.lists());
}

#[test]
fn bytes_that_are_no_list_of_edits_are_7() {
    let m = sum();
    refused(&m, 7, b"", 0, |m| m.evaluate_after(&[0; 256], b"a", Vec3::origin()));
    refused(&m, 7, b"", 0, |m| m.evaluate_after(&[1], b"a", Vec3::origin()));
}

#[test]
fn a_taken_tag_is_11() {
    let m = sum();
    refused(&m, 11, b"a", 0, |m| m.add_constant(b"a", 1.0));
    refused(&m, 11, b"a", 0, |m| m.add_function(b"a", Row::new(kind::SPHERE, &[])));
    refused(&m, 11, b"a", 0, |m| m.add_operation(b"a", add(), None));
    refused(&m, 11, b"b", 0, |m| m.rename_component(b"a", b"b"));
    refused(&m, 11, b"a", 0, |m| m.rename_component(b"a", b"a"));
    refused(&m, 11, b"b", 0, |m| m.rename_component(b"none", b"b"));
}

#[test]
fn what_is_not_there_is_12() {
    let m = sum();
    refused(&m, 12, b"x", 0, |m| m.add_input(b"x", b"y", 0));
    refused(&m, 12, b"y", 0, |m| m.add_input(b"sum", b"y", 0));
    refused(&m, 12, b"a", 0, |m| m.add_input(b"a", b"b", 0));
    refused(&m, 12, b"a", 0, |m| m.remove_input(b"a", 0));
    refused(&m, 12, b"x", 0, |m| m.remove_component(b"x"));
    refused(&m, 12, b"x", 0, |m| m.rename_component(b"x", b"x"));
    refused(&m, 12, b"x", 0, |m| m.set_parameter(b"x", b"Radius", value(1.0)));
    refused(&m, 12, b"x", 0, |m| m.read_parameter(b"x", b"Radius"));
    refused(&m, 12, b"x", 0, |m| m.compile(b"x"));
    refused(&m, 12, b"x", 0, |m| m.evaluate_at(b"x", Vec3::origin()));
    refused(&m, 12, b"x", 0, |m| m.evaluate_after(&[], b"x", Vec3::origin()));
}

#[test]
fn a_gap_is_13() {
    let mut m = sum();
    m.remove_input(b"sum", 1).unwrap();
    m.add_operation(b"o", offset(), None).unwrap();
    refused(&m, 13, b"sum", 1, |m| m.compile(b"sum"));
    refused(&m, 13, b"sum", 1, |m| m.evaluate_at(b"sum", Vec3::origin()));
    refused(&m, 13, b"sum", 1, |m| m.add_input(b"o", b"sum", 0));
}

#[test]
fn a_circle_is_14() {
    let mut m = sum();
    m.add_operation(b"o", offset(), Some(&[b"sum"])).unwrap();
    refused(&m, 14, b"sum", 0, |m| m.add_input(b"sum", b"o", 0));
    refused(&m, 14, b"sum", 0, |m| m.add_input(b"sum", b"sum", 0));
    m.add_operation(b"own", offset(), Some(&[b"own"])).unwrap();
    refused(&m, 14, b"own", 0, |m| m.compile(b"own"));
    refused(&m, 14, b"own", 0, |m| m.evaluate_at(b"own", Vec3::origin()));
}

#[test]
fn full_tables_are_15_and_16() {
    let mut m = full();
    refused(&m, 15, b"", 0, |m| m.add_constant(b"more", 1.0));
    refused(&m, 15, b"", 0, |m| m.add_function(b"more", Row::new(kind::SPHERE, &[])));
    refused(&m, 15, b"", 0, |m| m.add_operation(b"more", offset(), None));
    refused(&m, 15, b"", 0, |m| m.add_component(b"more", offset()));
    m.remove_component(b"held7").unwrap();
    refused(&m, 16, b"", 0, |m| m.add_operation(b"more", offset(), None));
    refused(&m, 16, b"", 0, |m| m.add_component(b"more", offset()));
    m.add_operation(b"gone9", offset(), None).unwrap();
    m.remove_component(b"held8").unwrap();
    m.add_component(b"more", constant(1.0)).unwrap();
}

#[test]
fn a_numbered_tag_past_32_bytes_is_17() {
    let mut m = ModelBytes::new();
    let base = [b'x'; 31];
    m.add_constant(&base, 1.0).unwrap();
    refused(&m, 17, &base, 0, |m| m.add_component(&base, constant(1.0)));
}

/// Each number has its sentence, which names what the refusal carries.
#[test]
fn a_person_reads_what_to_do() {
    for number in [1, 2, 3, 4, 5, 7, 11, 12, 13, 14, 15, 16, 17] {
        let refusal = Refusal { number, tag: b"wing wall".to_vec(), index: 2 };
        assert_ne!(refusal.reason(), Reason::Unknown);
        let said = refusal.to_string();
        assert!(said.ends_with('.') && said.len() > 40, "{said}");
        let names_the_tag = ![1, 7, 15, 16].contains(&number);
        assert_eq!(said.contains("wing wall"), names_the_tag, "{said}");
        assert_eq!(said.contains("nput 2"), [3, 13].contains(&number), "{said}");
    }
    let other = Refusal { number: 6, tag: vec![0xff], index: 0 };
    assert_eq!(other.reason(), Reason::Unknown);
    assert!(other.to_string().contains('6'));
    let error: Box<dyn std::error::Error> = Box::new(other);
    assert!(error.source().is_none());
}
