//! Why a call was refused, by the specification's number and in words for a person.
use std::error::Error;
use std::fmt::{self, Display, Formatter};

/// A refused call. It changed nothing.
#[derive(Debug, Clone, PartialEq, Eq)]
pub struct Refusal {
    /// The specification's number.
    pub number: u32,
    /// The tag that it carries; empty where none is named.
    pub tag: Vec<u8>,
    /// The index that it carries; 0 where none is named.
    pub index: u64,
}

/// What a refusal's number says.
#[derive(Debug, Clone, Copy, PartialEq, Eq)]
#[non_exhaustive]
pub enum Reason {
    TagTooLong,
    IncorrectInputCount,
    InputIndexOutOfRange,
    ParameterDoesNotFit,
    ParameterTooNear,
    InvalidModel,
    DuplicateTag,
    MissingTag,
    MissingInput,
    CyclicDependency,
    ComponentsFull,
    ListsFull,
    NumberedTagTooLong,
    /// A number that this package does not know: the library is of another version.
    Unknown,
}

impl Reason {
    pub fn of(number: u32) -> Reason {
        match number {
            1 => Reason::TagTooLong,
            2 => Reason::IncorrectInputCount,
            3 => Reason::InputIndexOutOfRange,
            4 => Reason::ParameterDoesNotFit,
            5 => Reason::ParameterTooNear,
            7 => Reason::InvalidModel,
            11 => Reason::DuplicateTag,
            12 => Reason::MissingTag,
            13 => Reason::MissingInput,
            14 => Reason::CyclicDependency,
            15 => Reason::ComponentsFull,
            16 => Reason::ListsFull,
            17 => Reason::NumberedTagTooLong,
            _ => Reason::Unknown,
        }
    }
}

impl Refusal {
    pub fn reason(&self) -> Reason {
        Reason::of(self.number)
    }

    /// The carried tag as text, with a mark for what is not UTF-8.
    pub fn tag_text(&self) -> String {
        String::from_utf8_lossy(&self.tag).into_owned()
    }
}

/// What happened, and what to do about it.
impl Display for Refusal {
    fn fmt(&self, f: &mut Formatter) -> fmt::Result {
        let (tag, index) = (self.tag_text(), self.index);
        match self.reason() {
            Reason::TagTooLong => write!(f, "A tag is longer than 32 bytes. Give the part a shorter name."),
            Reason::IncorrectInputCount => write!(f, "\"{tag}\" was handed the wrong number of inputs. Hand it as many as the operation takes, or none and wire them later."),
            Reason::InputIndexOutOfRange => write!(f, "\"{tag}\" has no input {index}. Inputs count from 0; pick one that it has."),
            Reason::ParameterDoesNotFit => write!(f, "\"{tag}\" can't take that: it has no such parameter, the parameter wants another kind of value, or the part is of another kind than this call adds. Check the spelling and the kind."),
            Reason::ParameterTooNear => write!(f, "The new limit of \"{tag}\" would fall on its partner, and nothing can be scaled over no distance. Set the two further apart."),
            Reason::InvalidModel => write!(f, "These bytes are no sound model, so nothing was done with them. Don't print from them: load the model again from where it was kept, or start a new one."),
            Reason::DuplicateTag => write!(f, "There is already a part named \"{tag}\". Pick another name, or remove that one first."),
            Reason::MissingTag => write!(f, "There is no part named \"{tag}\" to work with, or it has no inputs to wire. Check the name, or add the part first."),
            Reason::MissingInput => write!(f, "Input {index} of \"{tag}\" is wired to nothing. Wire it before going on: a gap is not a zero."),
            Reason::CyclicDependency => write!(f, "\"{tag}\" would hang on its own result, round in a circle. Take out one of the wires on the way."),
            Reason::ComponentsFull => write!(f, "The model is full: it holds 64 parts. Remove one that is not used."),
            Reason::ListsFull => write!(f, "The model is full: it holds 128 lists of inputs, those of removed parts counted. Reuse the name of a removed operation, or start a new model."),
            Reason::NumberedTagTooLong => write!(f, "\"{tag}\" is taken, and with a number behind it the name would pass 32 bytes. Give the part a shorter name."),
            Reason::Unknown => write!(f, "The library refused with the number {}, which this program does not know. Build both from the same sources.", self.number),
        }
    }
}

impl Error for Refusal {}
