// Ours, a child module of implicit_model: what the line protocol needs and the Rust keeps to its own crate.
use super::super::components;
use super::*;

pub type Components = HashMap<String, ModelComponent<f64>>;
pub type Lists = HashMap<String, Vec<Option<String>>>;

/// A model with these tables, as the Rust would hold them.
pub fn model(
    components: Components,
    inputs: Lists,
    default_output: Option<String>,
) -> ImplicitModel<f64> {
    ImplicitModel {
        components,
        inputs,
        default_output,
        ..ImplicitModel::new()
    }
}

/// The input lists, leftover ones too.
pub fn lists(model: &ImplicitModel<f64>) -> &Lists {
    &model.inputs
}

pub fn add_component(
    model: &mut ImplicitModel<f64>,
    tag: &str,
    component: ModelComponent<f64>,
) -> Result<String, ModelError> {
    model.add_component(tag, component)
}

pub fn rename_component(
    model: &mut ImplicitModel<f64>,
    current_tag: &str,
    new_tag: &str,
) -> Result<String, ModelError> {
    model.rename_component(current_tag, new_tag)
}

/// The tags of the graph that the Rust compiles, in its order.
/// The graph borrows its components from the model, so a component's address tells its tag.
pub fn compiled_order(model: &ImplicitModel<f64>, target: &str) -> Result<Vec<String>, ModelError> {
    let tag_of: HashMap<*const ModelComponent<f64>, &String> = model
        .components
        .iter()
        .map(|(tag, component)| (component as *const _, tag))
        .collect();
    let graph = model.compile(target)?;
    Ok(components(graph)
        .into_iter()
        .map(|component| tag_of[&(component as *const _)].clone())
        .collect())
}

/// Compile alone, for the benchmarks: whether it took the target.
pub fn compiles(model: &ImplicitModel<f64>, target: &str) -> bool {
    model.compile(target).map(components).is_ok()
}

/// More turns of the wiring walk than this count as a walk that does not end.
const TURNS: usize = 1_000_000;

/// Whether `add_input` comes back: it is refused ahead of its walk, or the walk is over within TURNS turns.
///
/// The Rust's walk puts a tag in line as often as it is named, so its line is the tags one wire from the source,
/// then those two wires away, and on. Each such level is counted here, without the line: a tag and how often it waits.
/// The walk stops in the first level that holds the target or a gap, or where a level is empty. A tag that can be
/// reached is met within as many levels as there are lists, so a level past those lies on a cycle and has no end.
pub fn walk_ends(model: &ImplicitModel<f64>, target: &str, source: &str, index: usize) -> bool {
    let present = |tag| model.components.contains_key(tag);
    let in_range = model
        .inputs
        .get(target)
        .map_or(false, |list| index < list.len());
    if !(present(target) && present(source) && in_range) {
        return true;
    }
    let list_of = |tag: &str| model.inputs.get(tag).map_or(&[][..], |list| &list[..]);
    let mut level = HashMap::from([(source, 1)]);
    let mut turns = 0;
    for _ in 0..=model.inputs.len() {
        let stops = |tag: &str| tag == target || list_of(tag).contains(&None);
        if level.is_empty() || level.keys().any(|tag| stops(tag)) {
            return true;
        }
        turns += level.values().sum::<usize>();
        if turns > TURNS {
            return false;
        }
        let mut next = HashMap::new();
        for (tag, count) in level {
            for input in list_of(tag).iter().flatten() {
                *next.entry(input.as_str()).or_insert(0) += count;
            }
        }
        level = next;
    }
    level.is_empty()
}

#[cfg(test)]
mod test {
    use super::*;
    use crate::types::computation::operations::shape::Offset;

    type List = Vec<Option<String>>;

    /// The Rust's walk, turn by turn, given up after more turns than four levels of two places have.
    fn walk_ends_turn_by_turn(lists: &Lists, target: &str, source: &str) -> bool {
        let mut line = VecDeque::from([source]);
        for _ in 0..100 {
            let Some(tag) = line.pop_front() else {
                return true;
            };
            let list = lists.get(tag).map_or(&[][..], |list| &list[..]);
            if tag == target || list.contains(&None) {
                return true;
            }
            line.extend(list.iter().flatten().map(|input| input.as_str()));
        }
        false
    }

    /// No list, or one of one or two places: unassigned, one of three tags, or a fourth that has no list.
    fn any_list() -> Vec<Option<List>> {
        let places = ["-", "a", "b", "c", "d"].map(|p| (p != "-").then(|| p.to_string()));
        let mut all = vec![None];
        for p in &places {
            all.push(Some(vec![p.clone()]));
            all.extend(places.iter().map(|q| Some(vec![p.clone(), q.clone()])));
        }
        all
    }

    fn check(lists: Lists) {
        let operation = || ModelComponent::Operation(Box::new(Offset::new(0.0)));
        let components = ["a", "b", "c"].map(|tag| (tag.to_string(), operation()));
        let mut model = model(components.into(), lists.clone(), None);
        for source in ["a", "b", "c"] {
            let ends = walk_ends(&model, "a", source, 0);
            let refused = !lists.contains_key("a");
            let expected = refused || walk_ends_turn_by_turn(&lists, "a", source);
            assert_eq!(ends, expected, "{lists:?} {source}");
            if ends {
                let _ = model.add_input("a", source, 0);
                model.inputs = lists.clone();
            }
        }
    }

    /// Every model of three tags with lists of at most two places; where the walk ends, the Rust is called.
    #[test]
    fn walk_ends_where_the_rust_comes_back() {
        for a in any_list() {
            for b in any_list() {
                for c in any_list() {
                    let lists = [("a", &a), ("b", &b), ("c", &c)];
                    let listed = |(tag, list): (&str, &Option<List>)| {
                        list.clone().map(|list| (tag.to_string(), list))
                    };
                    check(lists.into_iter().filter_map(listed).collect());
                }
            }
        }
    }
}
