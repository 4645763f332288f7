//! Edits as rows of 256 bytes, for a list that is run at once (docs/LAYOUT.md).
use crate::component::Row;
use crate::layout::{bits, count, put_word, PLACES};
use crate::parameter::Data;

pub const EDIT_SIZE: usize = 256;
/// The most bytes of a string in a row. A tag over 32 bytes is refused alike whatever it is, and no parameter's name is as long.
const TEXT_SIZE: usize = 40;

/// One edit. Tags and names are of any bytes: `"wall"` and `b"wall"` both do.
#[derive(Debug, Clone, PartialEq, Eq)]
pub struct Edit {
    row: [u8; EDIT_SIZE],
}

impl Edit {
    fn numbered(edit: u64) -> Edit {
        let mut row = [0; EDIT_SIZE];
        put_word(&mut row, 0, edit);
        Edit { row }
    }

    fn text(mut self, place: usize, text: impl AsRef<[u8]>) -> Edit {
        let text = text.as_ref();
        let kept = &text[..text.len().min(TEXT_SIZE)];
        let at = 64 + 48 * place;
        put_word(&mut self.row, at, count(kept.len()));
        self.row[at + 8..at + 8 + kept.len()].copy_from_slice(kept);
        self
    }

    fn words(mut self, kind: u64, numbers: &[u64]) -> Edit {
        put_word(&mut self.row, 8, kind);
        for (i, number) in numbers.iter().enumerate() {
            put_word(&mut self.row, 16 + 8 * i, *number);
        }
        self
    }

    /// The index, or the count of given inputs and 1.
    fn index(mut self, index: u64) -> Edit {
        put_word(&mut self.row, 56, index);
        self
    }

    pub fn add_operation(tag: impl AsRef<[u8]>, row: Row, inputs: Option<&[&[u8]]>) -> Edit {
        let given = inputs.map_or(0, |tags| count(tags.len()) + 1);
        let edit = Edit::numbered(1).words(row.kind, &row.numbers).index(given).text(0, tag);
        let looked_at = inputs.unwrap_or(&[]).iter().take(PLACES).enumerate();
        looked_at.fold(edit, |edit, (i, input)| edit.text(1 + i, input))
    }

    pub fn add_constant(tag: impl AsRef<[u8]>, value: f64) -> Edit {
        Edit::numbered(2).words(0, &[bits(value)]).text(0, tag)
    }

    pub fn add_function(tag: impl AsRef<[u8]>, row: Row) -> Edit {
        Edit::numbered(3).words(row.kind, &row.numbers).text(0, tag)
    }

    pub fn add_component(tag: impl AsRef<[u8]>, row: Row) -> Edit {
        Edit::numbered(4).words(row.kind, &row.numbers).text(0, tag)
    }

    pub fn add_input(target: impl AsRef<[u8]>, source: impl AsRef<[u8]>, index: usize) -> Edit {
        Edit::numbered(5).index(count(index)).text(0, target).text(1, source)
    }

    pub fn remove_input(tag: impl AsRef<[u8]>, index: usize) -> Edit {
        Edit::numbered(6).index(count(index)).text(0, tag)
    }

    pub fn remove_component(tag: impl AsRef<[u8]>) -> Edit {
        Edit::numbered(7).text(0, tag)
    }

    pub fn rename_component(old: impl AsRef<[u8]>, new: impl AsRef<[u8]>) -> Edit {
        Edit::numbered(8).text(0, old).text(1, new)
    }

    pub fn set_parameter(tag: impl AsRef<[u8]>, name: impl AsRef<[u8]>, data: Data) -> Edit {
        let row = data.row();
        Edit::numbered(9).words(row.kind, &row.numbers).text(0, tag).text(1, name)
    }
}

/// The bytes of a list of edits.
pub fn rows(edits: &[Edit]) -> Vec<u8> {
    edits.iter().flat_map(|edit| edit.row).collect()
}
