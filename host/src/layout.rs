//! Words, tags and places in bytes (docs/LAYOUT.md).

/// The bytes of a model.
pub const MODEL_SIZE: usize = 27_200;
/// The most components that a model holds.
pub const COMPONENTS: usize = 64;
/// The most input lists.
pub const LISTS: usize = 128;
/// The most places of a list.
pub const PLACES: usize = 3;
/// The most bytes of a tag.
pub const TAG_SIZE: usize = 32;
/// The bytes of a tag's row, and of a place's: the length, and room for the tag.
pub const TAG_ROW: usize = 40;
/// The bytes of a component's row.
pub const COMPONENT_ROW: usize = 88;
/// The bytes of a list's row.
pub const LIST_ROW: usize = 168;
/// Where the default stands, the first component's row, and the first list's.
pub const DEFAULT: usize = 24;
pub const FIRST_COMPONENT: usize = 64;
pub const FIRST_LIST: usize = FIRST_COMPONENT + COMPONENTS * COMPONENT_ROW;
/// The one NaN.
pub const NAN: u64 = 0x7ff8_0000_0000_0000;

/// The word at a place of some bytes that hold it.
pub fn word(bytes: &[u8], at: usize) -> u64 {
    let mut eight = [0; 8];
    eight.copy_from_slice(&bytes[at..at + 8]);
    u64::from_le_bytes(eight)
}

pub fn put_word(bytes: &mut [u8], at: usize, word: u64) {
    bytes[at..at + 8].copy_from_slice(&word.to_le_bytes());
}

/// A length or a count as a word.
pub fn count(n: usize) -> u64 {
    n as u64
}

/// The bits of a number; every NaN is the one NaN.
pub fn bits(number: f64) -> u64 {
    if number.is_nan() {
        NAN
    } else {
        number.to_bits()
    }
}

/// The tag of a row of 40 bytes that the library wrote.
pub fn tag(row: &[u8]) -> Vec<u8> {
    let length = (word(row, 0) as usize).min(TAG_SIZE);
    row[8..8 + length].to_vec()
}

/// The tag of a place's row; none where it is unassigned.
pub fn place(row: &[u8]) -> Option<Vec<u8>> {
    let length = (word(row, 0) as usize).checked_sub(1)?.min(TAG_SIZE);
    Some(row[8..8 + length].to_vec())
}

/// Writes a tag's row. The length of one that is too long stands in it, for the library to refuse.
pub fn put_tag(row: &mut [u8], tag: &[u8]) {
    put_text(row, count(tag.len()), tag);
}

/// Writes a place's row.
pub fn put_place(row: &mut [u8], place: Option<&[u8]>) {
    match place {
        Some(tag) => put_text(row, count(tag.len()) + 1, tag),
        None => put_text(row, 0, &[]),
    }
}

fn put_text(row: &mut [u8], first_word: u64, tag: &[u8]) {
    let length = tag.len().min(TAG_SIZE);
    row[..TAG_ROW].fill(0);
    put_word(row, 0, first_word);
    row[8..8 + length].copy_from_slice(&tag[..length]);
}
