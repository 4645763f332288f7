//! A list of edits run at once is the same edits run one by one, and the form asked after them under its newest tag.
mod common;

use common::{Change, Random};
use dotterelwire::bytes::{ModelBytes, Tag};
use dotterelwire::edit::rows;
use dotterelwire::record::Record;
use dotterelwire::{Edit, Refusal, Vec3};

/// The model after the edits one by one, and the target's newest tag.
fn one_by_one(before: &ModelBytes, changes: &[Change], target: &[u8]) -> (ModelBytes, Tag) {
    let (mut model, mut target) = (before.clone(), target.to_vec());
    for Change { run, rename, .. } in changes {
        let taken = run(&mut model).is_ok();
        match rename {
            Some((old, new)) if taken && *old == target => target = new.clone(),
            _ => {}
        }
    }
    (model, target)
}

/// Runs one list both ways; answers whether the form was taken.
fn agree(before: &ModelBytes, changes: &[Change], target: &[u8], point: Vec3) -> bool {
    let (wanted, newest) = one_by_one(before, changes, target);
    let edits: Vec<Edit> = changes.iter().map(|change| change.row.clone()).collect();
    let mut model = before.clone();
    let answer = model.evaluate_after(&rows(&edits), target, point);
    let bits = |answer: &Result<f64, Refusal>| answer.clone().map(f64::to_bits);
    assert_eq!(bits(&answer), bits(&wanted.evaluate_at(&newest, point)));
    match answer {
        Ok(_) => assert_eq!(Record::of(&model), Record::of(&wanted)),
        Err(_) => assert!(model == *before),
    }
    answer.is_ok()
}

#[test]
fn lists_run_at_once() {
    let random = &mut Random::new(11);
    let (mut model, mut taken) = (ModelBytes::new(), 0);
    for turn in 0..1000 {
        let changes: Vec<Change> = (0..random.below(12)).map(|_| Change::new(random)).collect();
        let point = Vec3::new(random.number(), random.number(), random.number());
        let target = random.tag();
        taken += usize::from(agree(&model, &changes, &target, point));
        model = if turn % 40 == 0 { ModelBytes::new() } else { one_by_one(&model, &changes, &target).0 };
    }
    assert!(taken > 100, "{taken}");
}
