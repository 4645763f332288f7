//! A record read off the rows is what the library's reading calls say of the same bytes, position by position and tag by tag.
mod common;

use common::{full, Change, Random};
use dotterelwire::bytes::ModelBytes;
use dotterelwire::record::Record;

fn agree(model: &ModelBytes) {
    let record = Record::of(model).unwrap();
    let (mut components, mut lists) = (model.components().unwrap(), model.lists().unwrap());
    components.sort_by(|a, b| a.0.cmp(&b.0));
    lists.sort_by(|a, b| a.0.cmp(&b.0));
    assert_eq!(model.default_output().unwrap(), record.default);
    assert_eq!(components, record.components);
    assert_eq!(lists, record.lists);
    for (tag, row) in &record.components {
        assert_eq!(model.get_component(tag).unwrap().as_ref(), Some(row));
    }
    for (tag, places) in &record.lists {
        assert_eq!(model.get_inputs(tag).unwrap().as_ref(), Some(places));
    }
}

#[test]
fn rows_are_what_the_calls_read() {
    let random = &mut Random::new(23);
    let mut model = ModelBytes::new();
    for turn in 0..600 {
        let change = Change::new(random);
        let _ = (change.run)(&mut model);
        agree(&model);
        if turn % 100 == 99 {
            model = ModelBytes::new();
        }
    }
    agree(&full());
}
