// The commands of the line protocol, each handed to the Rust; an answer is the line that is written.
use crate::component::Component;
use crate::record;
use crate::words::{number_word, tag_word, Fault, Words};
use imlet::types::computation::model::{open, Data, ImplicitModel};
use imlet::types::computation::ModelError;
use imlet::types::geometry::Vec3;

pub type Model = ImplicitModel<f64>;

/// The answer to a command, or why the line is none.
type Answer = Result<String, Fault>;

pub fn command(model: &mut Model, line: &str) -> Answer {
    let words = &mut Words::of(line);
    match words.word()? {
        "new" => new(model, words),
        "add_constant" => add_constant(model, words),
        "add_function" => add_function(model, words),
        "add_operation" => add_operation(model, words),
        "add_component" => add_component(model, words),
        "add_input" => add_input(model, words),
        "remove_input" => remove_input(model, words),
        "remove_component" => remove_component(model, words),
        "rename_component" => rename_component(model, words),
        "set_parameter" => set_parameter(model, words),
        "compile" => compile(model, words),
        "evaluate_at" => evaluate_at(model, words),
        "dump" => dump(model, words),
        "load" => load(model, words),
        "vec3" => vec3_operator(words),
        word => Err(format!("not a command: {word}")),
    }
}

fn new(model: &mut Model, words: &mut Words) -> Answer {
    words.end()?;
    *model = Model::new();
    done(Ok(()))
}

fn add_constant(model: &mut Model, words: &mut Words) -> Answer {
    let (tag, value) = (words.tag()?, words.number()?);
    words.end()?;
    tagged(model.add_constant(&tag, value))
}

fn add_function(model: &mut Model, words: &mut Words) -> Answer {
    let (tag, component) = (words.tag()?, Component::read(words)?);
    words.end()?;
    let answer = component.add_function(model, &tag);
    tagged(answer.ok_or("not a function: the Rust's types have no such call")?)
}

fn add_operation(model: &mut Model, words: &mut Words) -> Answer {
    let (tag, component) = (words.tag()?, Component::read(words)?);
    let given = match words.word()? {
        "none" => None,
        "inputs" => {
            let count = words.decimal()?;
            Some(words.tags(count)?)
        }
        word => return Err(format!("none or inputs expected, not {word}")),
    };
    words.end()?;
    let given: Option<Vec<&str>> = given
        .as_ref()
        .map(|tags| tags.iter().map(|tag| tag.as_str()).collect());
    let answer = component.add_operation(model, &tag, given.as_deref());
    tagged(answer.ok_or("not an operation: the Rust's types have no such call")?)
}

fn add_component(model: &mut Model, words: &mut Words) -> Answer {
    let (tag, component) = (words.tag()?, Component::read(words)?);
    words.end()?;
    tagged(open::add_component(model, &tag, component.value()))
}

fn add_input(model: &mut Model, words: &mut Words) -> Answer {
    let (target, source, index) = (words.tag()?, words.tag()?, words.decimal()?);
    words.end()?;
    if !open::walk_ends(model, &target, &source, index) {
        return Ok("hang".to_string());
    }
    done(model.add_input(&target, &source, index))
}

fn remove_input(model: &mut Model, words: &mut Words) -> Answer {
    let (tag, index) = (words.tag()?, words.decimal()?);
    words.end()?;
    done(model.remove_input(&tag, index))
}

fn remove_component(model: &mut Model, words: &mut Words) -> Answer {
    let tag = words.tag()?;
    words.end()?;
    done(model.remove_component(&tag))
}

fn rename_component(model: &mut Model, words: &mut Words) -> Answer {
    let (old, new) = (words.tag()?, words.tag()?);
    words.end()?;
    tagged(open::rename_component(model, &old, &new))
}

/// The Rust hands out the component by its tag, or nothing; setting answers nothing.
fn set_parameter(model: &mut Model, words: &mut Words) -> Answer {
    let (tag, name) = (words.tag()?, words.tag()?);
    let data = match words.word()? {
        "value" => Data::Value(words.number()?),
        "vec3" => Data::Vec3(vec3(words)?),
        "boolean" => match words.word()? {
            "0" => Data::Boolean(false),
            "1" => Data::Boolean(true),
            word => return Err(format!("0 or 1 expected, not {word}")),
        },
        word => return Err(format!("value, vec3 or boolean expected, not {word}")),
    };
    words.end()?;
    let component = model.get_component_mut(&tag);
    let component = component.ok_or(ModelError::MissingTag(tag));
    done(component.map(|component| component.set_parameter(&name, data)))
}

fn compile(model: &mut Model, words: &mut Words) -> Answer {
    let tag = words.tag()?;
    words.end()?;
    answered(open::compiled_order(model, &tag), |order| {
        let tags = order.iter().map(|tag| tag_word(tag));
        [order.len().to_string()].into_iter().chain(tags).collect()
    })
}

fn evaluate_at(model: &mut Model, words: &mut Words) -> Answer {
    let (tag, point) = (words.tag()?, vec3(words)?);
    words.end()?;
    let number = model.evaluate_at(&tag, point.x, point.y, point.z);
    answered(number, |number| vec![number_word(number)])
}

fn dump(model: &mut Model, words: &mut Words) -> Answer {
    words.end()?;
    answered(Ok(model), |model| vec![record::dump(model)])
}

fn load(model: &mut Model, words: &mut Words) -> Answer {
    *model = record::load(words)?;
    done(Ok(()))
}

fn vec3_operator(words: &mut Words) -> Answer {
    let operator = words.word()?;
    let a = vec3(words)?;
    let coordinates = |v: Vec3<f64>| vec![v.x, v.y, v.z];
    let numbers = match operator {
        "add" => coordinates(a + vec3(words)?),
        "sub" => coordinates(a - vec3(words)?),
        "dot" => vec![a.dot(&vec3(words)?)],
        "scale" => coordinates(a.scale(words.number()?)),
        _ => return Err(format!("not an operator: {operator}")),
    };
    words.end()?;
    answered(Ok(numbers), |numbers| {
        numbers.into_iter().map(number_word).collect()
    })
}

fn vec3(words: &mut Words) -> Result<Vec3<f64>, Fault> {
    Ok(Vec3::new(words.number()?, words.number()?, words.number()?))
}

fn done(answer: Result<(), ModelError>) -> Answer {
    answered(answer, |()| vec![])
}

fn tagged(answer: Result<String, ModelError>) -> Answer {
    answered(answer, |tag| vec![tag_word(&tag)])
}

fn answered<A>(answer: Result<A, ModelError>, words: impl FnOnce(A) -> Vec<String>) -> Answer {
    match answer {
        Ok(answer) => Ok([vec!["ok".to_string()], words(answer)].concat().join(" ")),
        Err(error) => refused(error),
    }
}

/// The Rust's error by document 01's number, with the tag and the index that it names.
fn refused(error: ModelError) -> Answer {
    let (number, tag, index) = match error {
        ModelError::IncorrectInputCount { component, .. } => (2, component, 0),
        ModelError::InputIndexOutOfRange {
            component, index, ..
        } => (3, component, index),
        ModelError::DuplicateTag(tag) => (11, tag, 0),
        ModelError::MissingTag(tag) => (12, tag, 0),
        ModelError::MissingInput { component, index } => (13, component, index),
        ModelError::CyclicDependency(tag) => (14, tag, 0),
        other => return Err(format!("the Rust's answer has no number: {other}")),
    };
    Ok(format!("refused {number} {} {index}", tag_word(&tag)))
}
