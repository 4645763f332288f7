//! What several tests use.
#![allow(dead_code)]
use dotterelwire::bytes::{ModelBytes, Tag};
use dotterelwire::component::{kind, Row};
use dotterelwire::{Data, Edit, Refusal, Vec3};

/// Numbers that look random and are the same in every run.
pub struct Random(u64);

impl Random {
    pub fn new(seed: u64) -> Random {
        Random(seed)
    }

    pub fn word(&mut self) -> u64 {
        self.0 = self.0.wrapping_add(0x9e37_79b9_7f4a_7c15);
        let mut z = self.0;
        z = (z ^ (z >> 30)).wrapping_mul(0xbf58_476d_1ce4_e5b9);
        z = (z ^ (z >> 27)).wrapping_mul(0x94d0_49bb_1331_11eb);
        z ^ (z >> 31)
    }

    pub fn below(&mut self, n: usize) -> usize {
        (self.word() % n as u64) as usize
    }

    pub fn chance(&mut self, one_in: usize) -> bool {
        self.below(one_in) == 0
    }

    pub fn pick<'a, T>(&mut self, from: &'a [T]) -> &'a T {
        &from[self.below(from.len())]
    }

    /// A number: small whole ones, special ones, and any bits.
    pub fn number(&mut self) -> f64 {
        match self.below(4) {
            0 => self.below(9) as f64 - 4.0,
            1 => *self.pick(&[0.0, -0.0, f64::NAN, f64::INFINITY, f64::NEG_INFINITY, f64::EPSILON, 5e-324]),
            2 => self.below(1000) as f64 / 64.0,
            _ => f64::from_bits(self.word()),
        }
    }

    /// A tag: mostly a short one that comes again.
    pub fn tag(&mut self) -> Vec<u8> {
        match self.below(20) {
            0 => vec![],
            1 => (0..self.below(33)).map(|_| self.word() as u8).collect(),
            _ => format!("t{}", self.below(12)).into_bytes(),
        }
    }

    pub fn row(&mut self) -> Row {
        let numbers = [(); 5].map(|()| self.number());
        let kind = self.word() % kind::COUNT;
        Row::new(kind, &numbers[..number_count(kind)])
    }
}

pub fn number_count(kind: u64) -> usize {
    match kind {
        kind::TORUS => 5,
        kind::SPHERE | kind::REMAP => 4,
        kind::CONSTANT | kind::LERP | kind::OFFSET | kind::THICKNESS => 1,
        _ => 0,
    }
}

pub fn constant(value: f64) -> Row {
    Row::new(kind::CONSTANT, &[value])
}

pub fn offset() -> Row {
    Row::new(kind::OFFSET, &[0.0])
}

/// A model with as many components and lists as fit.
pub fn full() -> ModelBytes {
    let mut model = ModelBytes::new();
    for i in 0..64 {
        let tag = format!("gone{i}");
        model.add_operation(tag.as_bytes(), offset(), None).unwrap();
    }
    for i in 0..64 {
        let tag = format!("gone{i}");
        model.remove_component(tag.as_bytes()).unwrap();
        model.add_operation(format!("held{i}").as_bytes(), offset(), None).unwrap();
    }
    model
}

fn slices(tags: &[Tag]) -> Vec<&[u8]> {
    tags.iter().map(Vec::as_slice).collect()
}

type Run = Box<dyn Fn(&mut ModelBytes) -> Result<(), Refusal>>;

/// An edit made at random: as a row of a list, as a call, and the tags of a rename.
pub struct Change {
    pub row: Edit,
    pub run: Run,
    pub rename: Option<(Tag, Tag)>,
}

impl Change {
    pub fn new(random: &mut Random) -> Change {
        let (tag, other, row, index) = (random.tag(), random.tag(), random.row(), random.below(4));
        let rename = Some((tag.clone(), other.clone()));
        let (row, run): (Edit, Run) = match random.below(10) {
            0 => {
                let value = random.number();
                (Edit::add_constant(&tag, value), Box::new(move |m| m.add_constant(&tag, value).map(drop)))
            }
            1 => (Edit::add_function(&tag, row), Box::new(move |m| m.add_function(&tag, row).map(drop))),
            2 | 3 => return Change::operation(random, tag, row),
            4 => (Edit::add_component(&tag, row), Box::new(move |m| m.add_component(&tag, row).map(drop))),
            5 => (Edit::add_input(&tag, &other, index), Box::new(move |m| m.add_input(&tag, &other, index as u64))),
            6 => (Edit::remove_input(&tag, index), Box::new(move |m| m.remove_input(&tag, index as u64))),
            7 => (Edit::remove_component(&tag), Box::new(move |m| m.remove_component(&tag))),
            8 => {
                let row = Edit::rename_component(&tag, &other);
                let run = Box::new(move |m: &mut ModelBytes| m.rename_component(&tag, &other).map(drop));
                return Change { row, run, rename };
            }
            _ => return Change::parameter(random, tag),
        };
        Change { row, run, rename: None }
    }

    fn operation(random: &mut Random, tag: Tag, row: Row) -> Change {
        let tags: Vec<Tag> = (0..random.below(5)).map(|_| random.tag()).collect();
        let given = !random.chance(3);
        let made = Edit::add_operation(&tag, row, given.then_some(&slices(&tags)));
        let run = move |m: &mut ModelBytes| m.add_operation(&tag, row, given.then_some(&slices(&tags))).map(drop);
        Change { row: made, run: Box::new(run), rename: None }
    }

    fn parameter(random: &mut Random, tag: Tag) -> Change {
        let names = ["Centre", "Radius", "Thickness", "Factor", "FromMax", "ToMin", "Distance"];
        let (name, x) = (names[random.below(names.len())], random.number());
        let data = match random.below(4) {
            0 => Data::Vec3(Vec3::new(x, random.number(), random.number())),
            1 => Data::Boolean(random.chance(2)),
            _ => Data::Value(x),
        };
        let row = Edit::set_parameter(&tag, name, data);
        Change { row, run: Box::new(move |m| m.set_parameter(&tag, name.as_bytes(), data.row())), rename: None }
    }
}
