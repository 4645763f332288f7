//! The whole model as a RECORD of the line protocol.
use crate::bytes::{ModelBytes, Place, Places, Tag};
use crate::component::Row;
use crate::layout::{
    count, place, put_place, put_tag, put_word, tag, word, COMPONENTS, COMPONENT_ROW, DEFAULT, FIRST_COMPONENT,
    FIRST_LIST, LISTS, LIST_ROW, MODEL_SIZE, PLACES, TAG_ROW,
};
use crate::refusal::Refusal;
use crate::words::{component_words, tag_or_none_word, tag_word, Fault, Words};

/// What a record says, sound or not.
#[derive(Debug, Clone, PartialEq, Eq)]
pub struct Record {
    pub default: Place,
    pub components: Vec<(Tag, Row)>,
    pub lists: Vec<(Tag, Places)>,
}

impl Record {
    /// What a model holds, in ascending tag order. The library judges the bytes, and refuses those that are no sound model;
    /// the rows are then read as docs/LAYOUT.md has them, since a call for each row would decode the model anew.
    pub fn of(model: &ModelBytes) -> Result<Record, Refusal> {
        model.check()?;
        let bytes = model.as_bytes();
        let mut components: Vec<_> = table(bytes, 8, FIRST_COMPONENT, COMPONENT_ROW).map(component).collect();
        let mut lists: Vec<_> = table(bytes, 16, FIRST_LIST, LIST_ROW).map(list).collect();
        components.sort_by(|a, b| a.0.cmp(&b.0));
        lists.sort_by(|a, b| a.0.cmp(&b.0));
        Ok(Record { default: place(&bytes[DEFAULT..]), components, lists })
    }

    pub fn words(&self) -> String {
        let mut words = vec!["default".to_string(), tag_or_none_word(self.default.as_deref())];
        words.extend(["components".to_string(), self.components.len().to_string()]);
        for (tag, row) in &self.components {
            words.push(tag_word(tag));
            words.extend(component_words(row));
        }
        words.extend(["lists".to_string(), self.lists.len().to_string()]);
        for (tag, places) in &self.lists {
            words.extend([tag_word(tag), places.len().to_string()]);
            words.extend(places.iter().map(|place| tag_or_none_word(place.as_deref())));
        }
        words.join(" ")
    }

    pub fn read(words: &mut Words) -> Result<Record, Fault> {
        words.expect("default")?;
        let default = words.tag_or_none()?;
        words.expect("components")?;
        let component = |words: &mut Words| Ok((words.tag()?, words.component()?));
        let components = rows(words, component)?;
        words.expect("lists")?;
        let list = |words: &mut Words| Ok((words.tag()?, rows(words, |words| words.tag_or_none())?));
        let lists = rows(words, list)?;
        words.end()?;
        Ok(Record { default, components, lists })
    }

    /// The bytes of the record (docs/LAYOUT.md). What there is no room for is counted all the same, so that the library
    /// sees a count or a length past its size, and refuses the bytes.
    pub fn bytes(&self) -> ModelBytes {
        let mut bytes = [0; MODEL_SIZE];
        put_word(&mut bytes, 0, 1);
        put_word(&mut bytes, 8, count(self.components.len()));
        put_word(&mut bytes, 16, count(self.lists.len()));
        put_place(&mut bytes[DEFAULT..], self.default.as_deref());
        for (i, (tag, row)) in self.components.iter().take(COMPONENTS).enumerate() {
            put_component(&mut bytes[FIRST_COMPONENT + i * COMPONENT_ROW..], tag, row);
        }
        for (i, (tag, places)) in self.lists.iter().take(LISTS).enumerate() {
            put_list(&mut bytes[FIRST_LIST + i * LIST_ROW..], tag, places);
        }
        ModelBytes::from(bytes)
    }
}

/// The rows of a table that count, by the word that says how many.
fn table(bytes: &[u8; MODEL_SIZE], counted_at: usize, first: usize, size: usize) -> impl Iterator<Item = &[u8]> {
    bytes[first..].chunks_exact(size).take(word(bytes, counted_at) as usize)
}

fn component(row: &[u8]) -> (Tag, Row) {
    let numbers = [8, 16, 24, 32, 40].map(|at| word(row, TAG_ROW + at));
    (tag(row), Row { kind: word(row, TAG_ROW), numbers })
}

fn list(row: &[u8]) -> (Tag, Places) {
    let places = row[TAG_ROW + 8..].chunks_exact(TAG_ROW).take(word(row, TAG_ROW) as usize);
    (tag(row), places.map(place).collect())
}

/// A count, and so many rows.
fn rows<R>(words: &mut Words, row: impl Fn(&mut Words) -> Result<R, Fault>) -> Result<Vec<R>, Fault> {
    (0..words.decimal()?).map(|_| row(words)).collect()
}

fn put_component(bytes: &mut [u8], tag: &[u8], row: &Row) {
    put_tag(bytes, tag);
    put_word(bytes, TAG_ROW, row.kind);
    for (i, number) in row.numbers.iter().enumerate() {
        put_word(bytes, TAG_ROW + 8 + 8 * i, *number);
    }
}

fn put_list(bytes: &mut [u8], tag: &[u8], places: &[Place]) {
    put_tag(bytes, tag);
    put_word(bytes, TAG_ROW, count(places.len()));
    for (i, place) in places.iter().take(PLACES).enumerate() {
        put_place(&mut bytes[TAG_ROW + 8 + TAG_ROW * i..], place.as_deref());
    }
}
