//! A model in its bytes, with tags of any bytes.
use crate::component::Row;
use crate::ffi;
use crate::geometry::Vec3;
use crate::layout::{bits, count, place, tag, word, COMPONENTS, LISTS, MODEL_SIZE, PLACES, TAG_ROW};
use crate::parameter::DataRow;
use crate::refusal::Refusal;
use crate::report::{reported, Report};

/// A tag of any bytes; those that the library hands out have 32 at most.
pub type Tag = Vec<u8>;
/// A tag as text, with a mark for what is not UTF-8. Every tag that came in as a `&str` comes out as it was.
pub fn text(tag: Tag) -> String {
    String::from_utf8(tag).unwrap_or_else(|e| String::from_utf8_lossy(e.as_bytes()).into_owned())
}

/// What a place of a list names; none where it is unassigned.
pub type Place = Option<Tag>;
/// The places of a list: 1 to 3.
pub type Places = Vec<Place>;

/// The bytes of a model. They may be any: every call judges them first, and refuses by 7 what is no sound model.
#[derive(Clone, PartialEq, Eq)]
pub struct ModelBytes {
    bytes: Box<[u8; MODEL_SIZE]>,
}

impl Default for ModelBytes {
    fn default() -> Self {
        ModelBytes::new()
    }
}

/// Bytes as they are kept, unjudged.
impl From<[u8; MODEL_SIZE]> for ModelBytes {
    fn from(bytes: [u8; MODEL_SIZE]) -> Self {
        ModelBytes { bytes: Box::new(bytes) }
    }
}

impl ModelBytes {
    /// A new model: it holds nothing.
    pub fn new() -> Self {
        let mut model = ModelBytes { bytes: Box::new([0; MODEL_SIZE]) };
        ffi::new(model.bytes.as_mut_slice(), &mut []);
        model
    }

    pub fn as_bytes(&self) -> &[u8; MODEL_SIZE] {
        &self.bytes
    }

    /// Whether 7 lets the bytes pass.
    pub fn check(&self) -> Result<(), Refusal> {
        self.ask(ffi::check).map(done)
    }

    fn ask(&self, call: impl FnOnce(&[u8], &mut [u8]) -> u32) -> Result<Report, Refusal> {
        reported(|out| call(self.bytes.as_slice(), out))
    }

    fn edit(&mut self, call: impl FnOnce(&mut [u8], &mut [u8]) -> u32) -> Result<Report, Refusal> {
        reported(|out| call(self.bytes.as_mut_slice(), out))
    }
}

fn done(_: Report) {}

fn made(report: Report) -> Tag {
    report.tag
}

/// The edits. One that is refused changes nothing.
impl ModelBytes {
    pub fn add_constant(&mut self, tag: &[u8], value: f64) -> Result<Tag, Refusal> {
        self.edit(|model, out| ffi::add_constant(model, tag, bits(value), out)).map(made)
    }

    pub fn add_function(&mut self, tag: &[u8], row: Row) -> Result<Tag, Refusal> {
        let [a, b, c, d, e] = row.numbers;
        self.edit(|model, out| ffi::add_function(model, tag, row.kind, a, b, c, d, e, out)).map(made)
    }

    /// With no inputs given, every place is unassigned. Of the given ones the first three are looked at.
    pub fn add_operation(&mut self, tag: &[u8], row: Row, inputs: Option<&[&[u8]]>) -> Result<Tag, Refusal> {
        let [a, b, c, d, e] = row.numbers;
        let given = inputs.map_or(0, |tags| count(tags.len()) + 1);
        let input = |i: usize| inputs.and_then(|tags| tags.get(i)).copied().unwrap_or_default();
        let (first, second, third) = (input(0), input(1), input(2));
        let call = |model: &mut [u8], out: &mut [u8]| {
            ffi::add_operation(model, tag, row.kind, a, b, c, d, e, given, first, second, third, out)
        };
        self.edit(call).map(made)
    }

    /// The tag made is the one asked for where it is free, else a numbered one.
    pub fn add_component(&mut self, tag: &[u8], row: Row) -> Result<Tag, Refusal> {
        let [a, b, c, d, e] = row.numbers;
        self.edit(|model, out| ffi::add_component(model, tag, row.kind, a, b, c, d, e, out)).map(made)
    }

    pub fn add_input(&mut self, target: &[u8], source: &[u8], index: u64) -> Result<(), Refusal> {
        self.edit(|model, out| ffi::add_input(model, target, source, index, out)).map(done)
    }

    pub fn remove_input(&mut self, tag: &[u8], index: u64) -> Result<(), Refusal> {
        self.edit(|model, out| ffi::remove_input(model, tag, index, out)).map(done)
    }

    pub fn remove_component(&mut self, tag: &[u8]) -> Result<(), Refusal> {
        self.edit(|model, out| ffi::remove_component(model, tag, out)).map(done)
    }

    pub fn rename_component(&mut self, old: &[u8], new: &[u8]) -> Result<Tag, Refusal> {
        self.edit(|model, out| ffi::rename_component(model, old, new, out)).map(made)
    }

    pub fn set_parameter(&mut self, tag: &[u8], name: &[u8], data: DataRow) -> Result<(), Refusal> {
        let [a, b, c] = data.numbers;
        self.edit(|model, out| ffi::set_parameter(model, tag, name, data.kind, a, b, c, out)).map(done)
    }

    /// Runs a list of edits ([`crate::edit::rows`]), then asks the form under its newest tag. Where the asking is refused,
    /// nothing is changed.
    pub fn evaluate_after(&mut self, edits: &[u8], target: &[u8], point: Vec3) -> Result<f64, Refusal> {
        let [x, y, z] = point.coordinates().map(bits);
        self.edit(|model, out| ffi::evaluate_after(model, edits, target, x, y, z, out)).map(number)
    }
}

fn number(report: Report) -> f64 {
    f64::from_bits(report.number)
}

/// What only reads.
impl ModelBytes {
    /// The order in which the form of a target is worked: inputs ahead of users, the target last.
    pub fn compile(&self, target: &[u8]) -> Result<Vec<Tag>, Refusal> {
        let mut order = [0; COMPONENTS * TAG_ROW];
        let report = self.ask(|model, out| ffi::compile(model, target, &mut order, out))?;
        let rows = order.chunks_exact(TAG_ROW).take(report.number as usize);
        Ok(rows.map(tag).collect())
    }

    /// The form's number at a point: negative is wall, positive is air.
    pub fn evaluate_at(&self, target: &[u8], point: Vec3) -> Result<f64, Refusal> {
        let [x, y, z] = point.coordinates().map(bits);
        self.ask(|model, out| ffi::evaluate_at(model, target, x, y, z, out)).map(number)
    }

    pub fn default_output(&self) -> Result<Place, Refusal> {
        let report = self.ask(ffi::default)?;
        Ok((report.number != 0).then_some(report.tag))
    }

    /// The component at a position of the table; none past its end.
    pub fn component_at(&self, position: usize) -> Result<Option<(Tag, Row)>, Refusal> {
        let mut words = [0; 48];
        let report = self.ask(|model, out| ffi::component_at(model, count(position), &mut words, out))?;
        Ok((report.number != 0).then_some((report.tag, row(&words))))
    }

    pub fn get_component(&self, tag: &[u8]) -> Result<Option<Row>, Refusal> {
        let mut words = [0; 48];
        let report = self.ask(|model, out| ffi::get_component(model, tag, &mut words, out))?;
        Ok((report.number != 0).then_some(row(&words)))
    }

    /// The input list at a position of the table; none past its end.
    pub fn list_at(&self, position: usize) -> Result<Option<(Tag, Places)>, Refusal> {
        let mut rows = [0; PLACES * TAG_ROW];
        let report = self.ask(|model, out| ffi::list_at(model, count(position), &mut rows, out))?;
        Ok(places(report.number, &rows).map(|places| (report.tag, places)))
    }

    pub fn get_inputs(&self, tag: &[u8]) -> Result<Option<Places>, Refusal> {
        let mut rows = [0; PLACES * TAG_ROW];
        let report = self.ask(|model, out| ffi::get_inputs(model, tag, &mut rows, out))?;
        Ok(places(report.number, &rows))
    }

    /// The data of a parameter: 0 where there is none, 1 a value, 2 a vec3, and its numbers.
    pub fn read_parameter(&self, tag: &[u8], name: &[u8]) -> Result<(u64, [u64; 3]), Refusal> {
        let mut words = [0; 24];
        let report = self.ask(|model, out| ffi::read_parameter(model, tag, name, &mut words, out))?;
        Ok((report.number, [0, 8, 16].map(|at| word(&words, at))))
    }

    /// Both tables, in their own sequence.
    pub fn components(&self) -> Result<Vec<(Tag, Row)>, Refusal> {
        table(COMPONENTS, |position| self.component_at(position))
    }

    pub fn lists(&self) -> Result<Vec<(Tag, Places)>, Refusal> {
        table(LISTS, |position| self.list_at(position))
    }
}

fn table<R>(size: usize, at: impl Fn(usize) -> Result<Option<R>, Refusal>) -> Result<Vec<R>, Refusal> {
    // the first answer is asked for also where the table is empty, so that 7 is heard
    (0..size).map(at).map_while(Result::transpose).collect()
}

fn row(words: &[u8; 48]) -> Row {
    Row { kind: word(words, 0), numbers: [8, 16, 24, 32, 40].map(|at| word(words, at)) }
}

/// The places that a reading reports: their count and 1, 0 where there is no list.
fn places(reported: u64, rows: &[u8]) -> Option<Places> {
    let count = (reported as usize).checked_sub(1)?;
    Some(rows.chunks_exact(TAG_ROW).take(count).map(place).collect())
}
