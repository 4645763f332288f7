//! Random damages of good models: each is refused with 7 and left as it is, or is a model that dumps and loads back as itself.
//! DOTTERELWIRE_DAMAGES says how many (100,000 where it is not set).
mod common;

use common::{full, Change, Random};
use dotterelwire::bytes::ModelBytes;
use dotterelwire::console::Console;
use dotterelwire::layout::{put_word, word, COMPONENT_ROW, FIRST_COMPONENT, FIRST_LIST, LIST_ROW, MODEL_SIZE};
use dotterelwire::record::Record;
use dotterelwire::{Refusal, Vec3};

type Bytes = [u8; MODEL_SIZE];

/// One call that may change a model, made at random.
fn edit(random: &mut Random, model: &mut ModelBytes) -> Result<(), Refusal> {
    (Change::new(random).run)(model)
}

/// Good models of several sizes; some of their free rows hold what was there before.
fn good_models(random: &mut Random) -> Vec<Bytes> {
    let mut models = vec![*ModelBytes::new().as_bytes(), *full().as_bytes()];
    for size in 0..60 {
        let mut model = ModelBytes::new();
        for _ in 0..size {
            let _ = edit(random, &mut model);
        }
        model.check().expect("edits keep a model sound");
        models.push(*model.as_bytes());
    }
    models
}

/// Where the header and the rows that count stand, whatever the counts say.
fn live(bytes: &Bytes) -> Vec<std::ops::Range<usize>> {
    let n = word(bytes, 8).min(64) as usize;
    let k = word(bytes, 16).min(128) as usize;
    let components = FIRST_COMPONENT..FIRST_COMPONENT + n * COMPONENT_ROW;
    vec![0..FIRST_COMPONENT, components, FIRST_LIST..FIRST_LIST + k * LIST_ROW]
}

/// Damages the bytes, mostly where they count.
fn damage(random: &mut Random, bytes: &mut Bytes) {
    let ranges = live(bytes);
    let mut at = match random.below(8) {
        0 => random.below(MODEL_SIZE),
        _ => {
            let range = random.pick(&ranges);
            range.start + random.below(range.len().max(1))
        }
    };
    match random.below(8) {
        0 => bytes[at] ^= 1 << random.below(8),
        1 => bytes[at] = random.word() as u8,
        2 => {
            at -= at % 8;
            put_word(bytes, at, random.word() >> random.below(64));
        }
        3 => {
            at -= at % 8;
            put_word(bytes, at, random.number().to_bits());
        }
        4 => put_word(bytes, *random.pick(&[0, 8, 16, 24]), random.below(140) as u64),
        5 => copy_row(random, bytes, FIRST_COMPONENT, COMPONENT_ROW, 64),
        6 => copy_row(random, bytes, FIRST_LIST, LIST_ROW, 128),
        _ => {
            let end = (at + random.below(50)).min(MODEL_SIZE);
            bytes[at..end].fill_with(|| random.word() as u8);
        }
    }
}

fn copy_row(random: &mut Random, bytes: &mut Bytes, first: usize, size: usize, rows: usize) {
    let (from, to) = (random.below(rows.min(12)), random.below(rows.min(12)));
    let row = first + from * size..first + (from + 1) * size;
    bytes.copy_within(row, first + to * size);
}

/// Bytes that are refused: every call says 7, and changes nothing.
fn stays_as_it_is(random: &mut Random, bytes: &Bytes) {
    let mut model = ModelBytes::from(*bytes);
    assert_eq!(edit(random, &mut model).unwrap_err().number, 7);
    let after = model.evaluate_after(&[], &random.tag(), Vec3::origin());
    assert_eq!(after.unwrap_err().number, 7);
    assert_eq!(model.evaluate_at(&random.tag(), Vec3::origin()).unwrap_err().number, 7);
    assert_eq!(model.compile(&random.tag()).unwrap_err().number, 7);
    assert_eq!(Record::of(&model).err().map(|refusal| refusal.number), Some(7));
    assert!(model.as_bytes() == bytes);
}

/// What the bytes hold, spelled again row by row, is what counts in them; and a dump of it loads back as itself.
fn loads_back(model: &ModelBytes) {
    let (components, lists) = (model.components().unwrap(), model.lists().unwrap());
    let again = Record { default: model.default_output().unwrap(), components, lists }.bytes();
    for range in live(model.as_bytes()) {
        assert!(model.as_bytes()[range.clone()] == again.as_bytes()[range]);
    }
    let dumped = Record::of(model).unwrap().words();
    let mut console = Console::new();
    let loaded = console.answer(format!("load {dumped}").as_bytes());
    assert_eq!(loaded.as_deref(), Some("ok"));
    assert_eq!(console.answer(b"dump"), Some(format!("ok {dumped}")));
}

/// An edit of a sound model leaves a sound one, and the rows past its counts as they were.
fn stays_sound(random: &mut Random, bytes: &Bytes) {
    let mut model = ModelBytes::from(*bytes);
    let taken = edit(random, &mut model).is_ok();
    assert!(taken || model.as_bytes() == bytes);
    model.check().unwrap();
    let mut spare = [true; MODEL_SIZE];
    for range in live(bytes).into_iter().chain(live(model.as_bytes())) {
        spare[range].fill(false);
    }
    let mut both = bytes.iter().zip(model.as_bytes()).zip(spare);
    assert!(both.all(|((before, after), spare)| !spare || before == after));
}

#[test]
fn damaged_bytes() {
    let count = std::env::var("DOTTERELWIRE_DAMAGES").ok();
    let count = count.map_or(100_000, |count| count.parse().expect("a number of damages"));
    let random = &mut Random::new(2);
    let models = good_models(random);
    let (mut refused, mut sound) = (0, 0);
    for turn in 0..count {
        // the two largest are slow to dump, and come less often
        let chosen = if turn % 100 == 0 { &models[1] } else { random.pick(&models[2..]) };
        let mut bytes = *chosen;
        for _ in 0..1 + random.below(2) * random.below(3) {
            damage(random, &mut bytes);
        }
        let model = ModelBytes::from(bytes);
        match model.check() {
            Err(refusal) => {
                assert_eq!(refusal, Refusal { number: 7, tag: vec![], index: 0 });
                stays_as_it_is(random, &bytes);
                refused += 1;
            }
            Ok(()) => {
                loads_back(&model);
                stays_sound(random, &bytes);
                sound += 1;
            }
        }
    }
    println!("{count} damages: {refused} refused with 7, {sound} sound models");
    assert!(count < 1000 || (refused > count / 10 && sound > count / 10));
}
