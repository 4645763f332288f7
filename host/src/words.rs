//! The words of the line protocol (docs/PROTOCOL.md): read from a line, and written into an answer.
use crate::component::{kind, Row};
use crate::layout::{bits, count};

/// Why a line is no command.
pub type Fault = String;

/// Each kind's word, and how many numbers follow it, by the kind's number.
const KINDS: [(&str, usize); kind::COUNT as usize] = [
    ("constant", 1),
    ("sphere", 4),
    ("torus", 5),
    ("Multiply", 0),
    ("Add", 0),
    ("Subtract", 0),
    ("Divide", 0),
    ("Lerp", 1),
    ("VariableLerp", 0),
    ("Remap", 4),
    ("BooleanUnion", 0),
    ("BooleanIntersection", 0),
    ("BooleanDifference", 0),
    ("Offset", 1),
    ("Thickness", 1),
];

/// The words of one line that are still to be read.
pub struct Words<'a>(std::str::Split<'a, char>);

impl<'a> Words<'a> {
    pub fn of(line: &'a str) -> Self {
        Words(line.split(' '))
    }

    pub fn word(&mut self) -> Result<&'a str, Fault> {
        self.0.next().ok_or_else(|| "a word is missing".to_string())
    }

    pub fn expect(&mut self, word: &str) -> Result<(), Fault> {
        match self.word()? {
            w if w == word => Ok(()),
            w => Err(format!("{word} expected, not {w}")),
        }
    }

    pub fn end(&mut self) -> Result<(), Fault> {
        self.0.next().map_or(Ok(()), |w| Err(format!("a word too many: {w}")))
    }

    /// A tag or a name: `.`, or two hexadecimal digits a byte.
    pub fn tag(&mut self) -> Result<Vec<u8>, Fault> {
        tag(self.word()?)
    }

    pub fn tags(&mut self, count: u64) -> Result<Vec<Vec<u8>>, Fault> {
        (0..count).map(|_| self.tag()).collect()
    }

    /// A tag, or `-` for none.
    pub fn tag_or_none(&mut self) -> Result<Option<Vec<u8>>, Fault> {
        match self.word()? {
            "-" => Ok(None),
            word => tag(word).map(Some),
        }
    }

    /// An index or a count.
    pub fn decimal(&mut self) -> Result<u64, Fault> {
        let word = self.word()?;
        let digits = word.bytes().all(|b| b.is_ascii_digit());
        let number = if digits { word.parse().ok() } else { None };
        number.ok_or_else(|| format!("not a decimal number: {word}"))
    }

    /// The 64 bits of a number; every NaN is the one NaN.
    pub fn number(&mut self) -> Result<f64, Fault> {
        let word = self.word()?;
        let digits = word.len() == 16 && word.bytes().all(|b| b.is_ascii_hexdigit());
        let number = if digits { u64::from_str_radix(word, 16).ok() } else { None };
        let number = number.ok_or_else(|| format!("not 16 hexadecimal digits: {word}"))?;
        Ok(f64::from_bits(bits(f64::from_bits(number))))
    }

    pub fn numbers(&mut self, count: usize) -> Result<Vec<f64>, Fault> {
        (0..count).map(|_| self.number()).collect()
    }

    /// A component: its kind and its numbers.
    pub fn component(&mut self) -> Result<Row, Fault> {
        let word = self.word()?;
        let found = KINDS.iter().position(|(name, _)| *name == word);
        let kind = found.ok_or_else(|| format!("not a kind: {word}"))?;
        Ok(Row::new(count(kind), &self.numbers(KINDS[kind].1)?))
    }
}

fn tag(word: &str) -> Result<Vec<u8>, Fault> {
    if word == "." {
        return Ok(vec![]);
    }
    let fault = || format!("not a tag: {word}");
    if word.is_empty() || word.len() % 2 != 0 {
        return Err(fault());
    }
    let digit = |b: u8| char::from(b).to_digit(16).ok_or_else(fault);
    let byte = |pair: &[u8]| Ok((digit(pair[0])? << 4 | digit(pair[1])?) as u8);
    word.as_bytes().chunks_exact(2).map(byte).collect()
}

pub fn tag_word(tag: &[u8]) -> String {
    if tag.is_empty() {
        return ".".to_string();
    }
    tag.iter().map(|b| format!("{b:02x}")).collect()
}

pub fn tag_or_none_word(tag: Option<&[u8]>) -> String {
    tag.map_or("-".to_string(), tag_word)
}

pub fn number_word(number: f64) -> String {
    format!("{:016x}", bits(number))
}

/// The words of a component that the library handed out.
pub fn component_words(row: &Row) -> Vec<String> {
    let known = usize::try_from(row.kind).ok().and_then(|kind| KINDS.get(kind));
    let (name, count) = known.copied().unwrap_or(("unknown", 0));
    let numbers = row.numbers.iter().take(count).map(|number| number_word(f64::from_bits(*number)));
    [name.to_string()].into_iter().chain(numbers).collect()
}
