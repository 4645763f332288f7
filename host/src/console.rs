//! The line protocol (docs/PROTOCOL.md) on one model.
use crate::bytes::{ModelBytes, Tag};
use crate::geometry::Vec3;
use crate::parameter::Data;
use crate::record::Record;
use crate::refusal::Refusal;
use crate::words::{number_word, tag_word, Fault, Words};

/// The answer to a command, or why the line is none.
type Answer = Result<String, Fault>;

/// A model, and the commands on it.
#[derive(Default)]
pub struct Console {
    model: ModelBytes,
}

impl Console {
    pub fn new() -> Console {
        Console::default()
    }

    /// The answer to a line; none to an empty one or a comment.
    pub fn answer(&mut self, line: &[u8]) -> Option<String> {
        if line.is_empty() || line.starts_with(b"#") {
            return None;
        }
        let answer = match std::str::from_utf8(line) {
            Ok(line) => self.command(&mut Words::of(line)),
            Err(_) => Err("the line is not UTF-8".to_string()),
        };
        Some(answer.unwrap_or_else(|fault| format!("error {fault}")))
    }

    fn command(&mut self, words: &mut Words) -> Answer {
        match words.word()? {
            "new" => self.new_model(words),
            "add_constant" => self.add_constant(words),
            "add_function" => self.add_function(words),
            "add_operation" => self.add_operation(words),
            "add_component" => self.add_component(words),
            "add_input" => self.add_input(words),
            "remove_input" => self.remove_input(words),
            "remove_component" => self.remove_component(words),
            "rename_component" => self.rename_component(words),
            "set_parameter" => self.set_parameter(words),
            "compile" => self.compile(words),
            "evaluate_at" => self.evaluate_at(words),
            "dump" => self.dump(words),
            "load" => self.load(words),
            "vec3" => vec3_operator(words),
            word => Err(format!("not a command: {word}")),
        }
    }

    fn new_model(&mut self, words: &mut Words) -> Answer {
        words.end()?;
        self.model = ModelBytes::new();
        done(Ok(()))
    }

    fn add_constant(&mut self, words: &mut Words) -> Answer {
        let (tag, value) = (words.tag()?, words.number()?);
        words.end()?;
        tagged(self.model.add_constant(&tag, value))
    }

    fn add_function(&mut self, words: &mut Words) -> Answer {
        let (tag, row) = (words.tag()?, words.component()?);
        words.end()?;
        tagged(self.model.add_function(&tag, row))
    }

    fn add_operation(&mut self, words: &mut Words) -> Answer {
        let (tag, row) = (words.tag()?, words.component()?);
        let given = match words.word()? {
            "none" => None,
            "inputs" => {
                let count = words.decimal()?;
                Some(words.tags(count)?)
            }
            word => return Err(format!("none or inputs expected, not {word}")),
        };
        words.end()?;
        let given: Option<Vec<&[u8]>> = given.as_ref().map(|tags| tags.iter().map(Vec::as_slice).collect());
        tagged(self.model.add_operation(&tag, row, given.as_deref()))
    }

    fn add_component(&mut self, words: &mut Words) -> Answer {
        let (tag, row) = (words.tag()?, words.component()?);
        words.end()?;
        tagged(self.model.add_component(&tag, row))
    }

    fn add_input(&mut self, words: &mut Words) -> Answer {
        let (target, source, index) = (words.tag()?, words.tag()?, words.decimal()?);
        words.end()?;
        done(self.model.add_input(&target, &source, index))
    }

    fn remove_input(&mut self, words: &mut Words) -> Answer {
        let (tag, index) = (words.tag()?, words.decimal()?);
        words.end()?;
        done(self.model.remove_input(&tag, index))
    }

    fn remove_component(&mut self, words: &mut Words) -> Answer {
        let tag = words.tag()?;
        words.end()?;
        done(self.model.remove_component(&tag))
    }

    fn rename_component(&mut self, words: &mut Words) -> Answer {
        let (old, new) = (words.tag()?, words.tag()?);
        words.end()?;
        tagged(self.model.rename_component(&old, &new))
    }

    fn set_parameter(&mut self, words: &mut Words) -> Answer {
        let (tag, name, data) = (words.tag()?, words.tag()?, data(words)?);
        words.end()?;
        done(self.model.set_parameter(&tag, &name, data.row()))
    }

    fn compile(&mut self, words: &mut Words) -> Answer {
        let tag = words.tag()?;
        words.end()?;
        answered(self.model.compile(&tag), |order| {
            let tags = order.iter().map(|tag| tag_word(tag));
            [order.len().to_string()].into_iter().chain(tags).collect()
        })
    }

    fn evaluate_at(&mut self, words: &mut Words) -> Answer {
        let (tag, point) = (words.tag()?, vec3(words)?);
        words.end()?;
        answered(self.model.evaluate_at(&tag, point), |number| vec![number_word(number)])
    }

    fn dump(&mut self, words: &mut Words) -> Answer {
        words.end()?;
        answered(Record::of(&self.model), |record| vec![record.words()])
    }

    /// The record is taken as it stands: whether it is a sound model is for the library to say, in every later call.
    fn load(&mut self, words: &mut Words) -> Answer {
        self.model = Record::read(words)?.bytes();
        done(Ok(()))
    }
}

fn data(words: &mut Words) -> Result<Data, Fault> {
    match words.word()? {
        "value" => Ok(Data::Value(words.number()?)),
        "vec3" => Ok(Data::Vec3(vec3(words)?)),
        "boolean" => match words.word()? {
            "0" => Ok(Data::Boolean(false)),
            "1" => Ok(Data::Boolean(true)),
            word => Err(format!("0 or 1 expected, not {word}")),
        },
        word => Err(format!("value, vec3 or boolean expected, not {word}")),
    }
}

fn vec3(words: &mut Words) -> Result<Vec3, Fault> {
    Ok(Vec3::new(words.number()?, words.number()?, words.number()?))
}

/// The operators of vectors, which are plain operations of f64 and touch no model.
fn vec3_operator(words: &mut Words) -> Answer {
    let operator = words.word()?;
    let a = vec3(words)?;
    let numbers = match operator {
        "add" => (a + vec3(words)?).coordinates().to_vec(),
        "sub" => (a - vec3(words)?).coordinates().to_vec(),
        "dot" => vec![a.dot(&vec3(words)?)],
        "scale" => a.scale(words.number()?).coordinates().to_vec(),
        _ => return Err(format!("not an operator: {operator}")),
    };
    words.end()?;
    answered(Ok(numbers), |numbers| numbers.into_iter().map(number_word).collect())
}

fn done(answer: Result<(), Refusal>) -> Answer {
    answered(answer, |()| vec![])
}

fn tagged(answer: Result<Tag, Refusal>) -> Answer {
    answered(answer, |tag| vec![tag_word(&tag)])
}

fn answered<A>(answer: Result<A, Refusal>, words: impl FnOnce(A) -> Vec<String>) -> Answer {
    Ok(match answer {
        Ok(answer) => [vec!["ok".to_string()], words(answer)].concat().join(" "),
        Err(refusal) => format!("refused {} {} {}", refusal.number, tag_word(&refusal.tag), refusal.index),
    })
}
