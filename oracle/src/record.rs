// The whole model as a RECORD of the protocol.
use crate::component::{component_words, Component};
use crate::words::{tag_word, Fault, Words};
use imlet::types::computation::model::{open, ImplicitModel};

fn tag_or_none_word(tag: Option<&str>) -> String {
    tag.map_or("-".to_string(), tag_word)
}

pub fn dump(model: &ImplicitModel<f64>) -> String {
    let mut components = model.all_components();
    components.sort_by_key(|(tag, _)| *tag);
    let mut lists: Vec<_> = open::lists(model).iter().collect();
    lists.sort_by_key(|(tag, _)| *tag);

    let mut words = vec!["default".to_string()];
    words.push(tag_or_none_word(model.get_default_output()));
    words.extend(["components".to_string(), components.len().to_string()]);
    for (tag, component) in components {
        words.push(tag_word(tag));
        words.extend(component_words(component));
    }
    words.extend(["lists".to_string(), lists.len().to_string()]);
    for (tag, places) in lists {
        words.extend([tag_word(tag), places.len().to_string()]);
        words.extend(
            places
                .iter()
                .map(|place| tag_or_none_word(place.as_deref())),
        );
    }
    words.join(" ")
}

/// Takes what a tag held before in its table: a tag comes once.
fn once<V>(before: Option<V>) -> Result<(), Fault> {
    before.map_or(Ok(()), |_| {
        Err("a tag twice in one table, which the Rust's can't hold".to_string())
    })
}

pub fn load(words: &mut Words) -> Result<ImplicitModel<f64>, Fault> {
    words.expect("default")?;
    let default = words.tag_or_none()?;
    words.expect("components")?;
    let mut components = open::Components::new();
    for _ in 0..words.decimal()? {
        let tag = words.tag()?;
        let component = Component::read(words)?.value();
        once(components.insert(tag, component))?;
    }
    words.expect("lists")?;
    let mut lists = open::Lists::new();
    for _ in 0..words.decimal()? {
        let tag = words.tag()?;
        let count = words.decimal()?;
        let places = (0..count)
            .map(|_| words.tag_or_none())
            .collect::<Result<_, _>>()?;
        once(lists.insert(tag, places))?;
    }
    words.end()?;
    Ok(open::model(components, lists, default))
}
