//! Document 01's model and its edits, written from the document and not from the code, with faults to be found.
//!
//! A model without a fault is the reference: what document 01 asks for. `sizes: false` leaves its sizes out, as the Rust does.
use crate::words::{place_word, tag_word, Component, Data, Place, Record, Tag};
use std::collections::{BTreeMap, BTreeSet, VecDeque};

#[derive(Clone)]
pub struct Refusal(pub usize, pub Tag, pub usize);

pub type Answer = Result<String, Refusal>;

impl Refusal {
    pub fn words(&self) -> String {
        format!("refused {} {} {}", self.0, tag_word(&self.1), self.2)
    }
}

/// Refuses where a condition holds; the tag is copied only then.
pub fn refuse_if(condition: bool, number: usize, tag: &[u8], index: usize) -> Result<(), Refusal> {
    if condition {
        return Err(Refusal(number, tag.to_vec(), index));
    }
    Ok(())
}

fn made(tag: &[u8]) -> Answer {
    Ok(format!("ok {}", tag_word(tag)))
}

fn done() -> Answer {
    Ok("ok".to_string())
}

#[derive(Clone)]
pub struct Model {
    pub components: BTreeMap<Tag, Component>,
    pub lists: BTreeMap<Tag, Vec<Place>>,
    pub default: Place,
    /// 7 does not let it pass.
    pub broken: bool,
    pub sizes: bool,
    pub fault: &'static str,
    /// Edits taken and components ever added, for the faults that count them.
    pub edits: usize,
    pub added: usize,
}

impl Model {
    pub fn new(fault: &'static str) -> Model {
        Model {
            components: BTreeMap::new(),
            lists: BTreeMap::new(),
            default: None,
            broken: false,
            sizes: true,
            fault,
            edits: 0,
            added: 0,
        }
    }

    pub fn wrong(&self, fault: &str) -> bool {
        self.fault == fault
    }

    pub fn list(&self, t: &[u8]) -> &[Place] {
        self.lists.get(t).map_or(&[], |l| &l[..])
    }

    /// The lowest unassigned place of a tag's list.
    pub fn gap(&self, t: &[u8]) -> Option<usize> {
        self.list(t).iter().position(|p| p.is_none())
    }

    pub fn too_long(&self, t: &[u8]) -> bool {
        let bound = if self.wrong("tag-of-32-refused") { 31 } else { 32 };
        self.sizes && t.len() > bound
    }

    fn check_length(&self, t: &[u8]) -> Result<(), Refusal> {
        refuse_if(self.too_long(t), 1, &[], 0)
    }

    fn check_room(&self) -> Result<(), Refusal> {
        let held = if self.wrong("room-not-used-again") { self.added } else { self.components.len() };
        let bound = match self.fault {
            "room-for-63" => 63,
            "room-for-65" => 65,
            _ => 64,
        };
        refuse_if(self.sizes && held >= bound, 15, &[], 0)
    }

    fn check_list_room(&self, t: &[u8]) -> Result<(), Refusal> {
        let bound = if self.wrong("room-for-127-lists") { 127 } else { 128 };
        let needed = self.wrong("leftover-not-used-again") || !self.lists.contains_key(t);
        refuse_if(self.sizes && needed && self.lists.len() >= bound, 16, &[], 0)
    }

    fn check_free(&self, t: &[u8]) -> Result<(), Refusal> {
        refuse_if(self.components.contains_key(t), 11, t, 0)
    }

    pub fn check_present(&self, t: &[u8]) -> Result<(), Refusal> {
        refuse_if(!self.components.contains_key(t), 12, t, 0)
    }

    fn place(&mut self, t: &[u8], c: Component, default: &[u8]) -> Answer {
        self.components.insert(t.to_vec(), c);
        self.added += 1;
        self.default = Some(default.to_vec());
        made(t)
    }

    /// add_constant and add_function; another kind of component is 4.
    pub fn add_plain(&mut self, t: &[u8], c: Component, fits: bool) -> Answer {
        self.check_length(t)?;
        refuse_if(!fits, 4, t, 0)?;
        self.check_free(t)?;
        self.check_room()?;
        if self.wrong("constant-clears-list") {
            self.lists.remove(t);
        }
        self.place(t, c, t)
    }

    fn unassigned(count: usize) -> Vec<Place> {
        vec![None; count]
    }

    pub fn add_operation(&mut self, t: &[u8], c: Component, given: Option<Vec<Tag>>) -> Answer {
        self.check_length(t)?;
        for input in given.iter().flatten().take(3) {
            self.check_length(input)?;
        }
        refuse_if(c.inputs() == 0, 4, t, 0)?;
        if self.wrong("count-before-free") {
            refuse_if(given.as_ref().is_some_and(|g| g.len() != c.inputs()), 2, t, 0)?;
        }
        self.check_free(t)?;
        if self.wrong("refusal-moves-default") && self.default.is_some() {
            self.default = self.components.keys().next().cloned();
        }
        refuse_if(given.as_ref().is_some_and(|g| g.len() != c.inputs()), 2, t, 0)?;
        self.check_room()?;
        self.check_list_room(t)?;
        let places = match given {
            Some(tags) => tags.into_iter().map(Some).collect(),
            None if self.wrong("leftover-kept-by-adding") && self.list(t).len() == c.inputs() => self.list(t).to_vec(),
            None => Model::unassigned(c.inputs()),
        };
        self.lists.insert(t.to_vec(), places);
        self.place(t, c, t)
    }

    fn is_taken(&self, t: &[u8]) -> bool {
        self.components.contains_key(t) || self.wrong("free-looks-at-lists") && self.lists.contains_key(t)
    }

    fn free_tag(&self, t: &[u8]) -> Tag {
        let first = if self.wrong("numbered-from-2") { 2 } else { 1 };
        let numbered = |k: usize| [t, b"_", k.to_string().as_bytes()].concat();
        if !self.is_taken(t) {
            return t.to_vec();
        }
        (first..).map(numbered).find(|u| !self.is_taken(u)).unwrap_or_default()
    }

    pub fn add_component(&mut self, t: &[u8], c: Component) -> Answer {
        self.check_length(t)?;
        let tag = self.free_tag(t);
        let too_long = self.sizes && tag.len() > 32;
        if self.wrong("15-before-17") {
            self.check_room()?;
        }
        refuse_if(too_long, 17, if self.wrong("17-carries-nothing") { &[] } else { t }, 0)?;
        self.check_room()?;
        if c.inputs() > 0 {
            self.check_list_room(&tag)?;
            self.lists.insert(tag.clone(), Model::unassigned(c.inputs()));
        }
        let default = if self.wrong("default-is-the-tag-made") { tag.clone() } else { t.to_vec() };
        self.place(&tag, c, &default)
    }

    /// The wiring walk: breadth first, each tag once, a tag met at its turn.
    pub fn walk(&self, target: &[u8], source: &[u8]) -> Result<(), Refusal> {
        let mut line = VecDeque::from([source]);
        let mut waited = BTreeSet::from([source]);
        while let Some(t) = line.pop_front() {
            if self.wrong("gap-before-target") {
                self.check_gap(t)?;
            }
            refuse_if(t == target, 14, target, 0)?;
            if !self.wrong("walk-passes-gaps") {
                self.check_gap(t)?;
            }
            for input in self.list(t).iter().flatten() {
                if self.wrong("target-met-in-line") {
                    refuse_if(input == target, 14, target, 0)?;
                }
                if waited.insert(input) {
                    if self.wrong("walk-depth-first") {
                        line.push_front(input);
                    } else {
                        line.push_back(input);
                    }
                }
            }
        }
        Ok(())
    }

    fn check_gap(&self, t: &[u8]) -> Result<(), Refusal> {
        self.gap(t).map_or(Ok(()), |i| Err(Refusal(13, t.to_vec(), i)))
    }

    fn check_index(&self, t: &[u8], i: usize) -> Result<(), Refusal> {
        refuse_if(i >= self.list(t).len(), 3, t, i)
    }

    pub fn add_input(&mut self, target: &[u8], source: &[u8], i: usize) -> Answer {
        self.check_length(target)?;
        self.check_length(source)?;
        self.check_present(target)?;
        self.check_present(source)?;
        refuse_if(!self.lists.contains_key(target), 12, target, 0)?;
        if self.wrong("walk-before-index") {
            self.walk(target, source)?;
        }
        self.check_index(target, i)?;
        if !self.wrong("cycles-wired") {
            self.walk(target, source)?;
        }
        self.set_place(target, i, Some(source.to_vec()));
        done()
    }

    fn set_place(&mut self, t: &[u8], i: usize, place: Place) {
        if let Some(p) = self.lists.get_mut(t).and_then(|l| l.get_mut(i)) {
            *p = place;
        }
    }

    pub fn remove_input(&mut self, t: &[u8], i: usize) -> Answer {
        self.check_length(t)?;
        if self.wrong("remove-input-needs-component") {
            self.check_present(t)?;
        }
        refuse_if(!self.lists.contains_key(t), 12, t, 0)?;
        if !(self.wrong("index-at-length-taken") && i == self.list(t).len()) {
            self.check_index(t, i)?;
        }
        self.set_place(t, i, None);
        if self.wrong("empty-list-freed")
            && self.list(t).iter().all(|p| p.is_none())
            && !self.components.contains_key(t)
        {
            self.lists.remove(t);
        }
        done()
    }

    /// Every place that names the old tag now has another.
    fn replace(&mut self, old: &[u8], new: Place) {
        for places in self.lists.values_mut() {
            for p in places.iter_mut().filter(|p| p.as_deref() == Some(old)) {
                *p = new.clone();
            }
        }
    }

    fn names_default(&self, t: &[u8]) -> bool {
        self.default.as_deref() == Some(t)
    }

    pub fn remove_component(&mut self, t: &[u8]) -> Answer {
        self.check_length(t)?;
        self.check_present(t)?;
        self.components.remove(t);
        if self.wrong("list-dropped") {
            self.lists.remove(t);
        }
        let own = self.lists.get(t).cloned();
        if !self.wrong("removal-leaves-places") {
            self.replace(t, None);
        }
        if let (true, Some(list)) = (self.wrong("removal-spares-own-list"), own) {
            self.lists.insert(t.to_vec(), list);
        }
        if self.names_default(t) && !self.wrong("removal-moves-default") {
            self.default = None;
        } else if self.names_default(t) {
            self.default = self.components.keys().next().cloned();
        }
        done()
    }

    fn move_list(&mut self, old: &[u8], new: &[u8]) {
        let leftover = self.lists.contains_key(new);
        match self.lists.remove(old) {
            Some(list) if self.wrong("rename-copies-list") => {
                self.lists.insert(old.to_vec(), list.clone());
                self.lists.insert(new.to_vec(), list);
            }
            Some(_) if self.wrong("rename-keeps-leftover") && leftover => {}
            Some(list) => {
                self.lists.insert(new.to_vec(), list);
            }
            None if self.wrong("rename-clears-leftover") => {
                self.lists.remove(new);
            }
            None => {}
        }
    }

    pub fn rename_component(&mut self, old: &[u8], new: &[u8]) -> Answer {
        self.check_length(old)?;
        self.check_length(new)?;
        if self.wrong("12-before-11") {
            self.check_present(old)?;
        }
        if !(self.wrong("rename-to-itself") && old == new) {
            self.check_free(new)?;
        }
        self.check_present(old)?;
        if let Some(c) = self.components.remove(old) {
            self.components.insert(new.to_vec(), c);
        }
        self.move_list(old, new);
        if !self.wrong("rename-leaves-places") {
            self.replace(old, Some(new.to_vec()));
        }
        if self.wrong("rename-none") && old == b"None" {
            self.fill_gaps(new);
        }
        if self.names_default(old) && !self.wrong("rename-leaves-default") {
            self.default = Some(new.to_vec());
        }
        made(new)
    }

    /// What the Rust does when it renames "None".
    pub fn fill_gaps(&mut self, new: &[u8]) {
        for p in self.lists.values_mut().flatten().filter(|p| p.is_none()) {
            *p = Some(new.to_vec());
        }
    }

    pub fn set_parameter(&mut self, t: &[u8], name: &[u8], data: &Data) -> Answer {
        self.check_length(t)?;
        self.check_present(t)?;
        if let Some(c) = self.components.get_mut(t) {
            crate::parameter::set(c, t, name, data, self.fault)?;
        }
        done()
    }

    /// A record taken as it stands, with 7 asked.
    pub fn load(&mut self, r: &Record) {
        let (fault, edits) = (self.fault, self.edits);
        *self = Model::new(fault);
        (self.edits, self.added) = (edits, r.components.len());
        self.default = r.default.clone();
        self.components = r.components.iter().cloned().collect();
        self.lists = r.lists.iter().cloned().collect();
        self.broken = self.is_broken(r) && !self.wrong("7-never");
    }

    fn is_broken(&self, r: &Record) -> bool {
        let long = |t: &Tag| t.len() > 32;
        let twice = self.components.len() < r.components.len() || self.lists.len() < r.lists.len();
        let sizes = r.components.len() > 64 || r.lists.len() > 128;
        let tags = r.components.iter().any(|c| long(&c.0)) || r.lists.iter().any(|l| long(&l.0));
        let places = r.lists.iter().any(|l| !(1..=3).contains(&l.1.len()) || l.1.iter().flatten().any(long));
        let counts = self.components.iter().any(|(t, c)| c.inputs() > 0 && self.list(t).len() != c.inputs());
        let default = self.default.as_ref().is_some_and(|t| !self.components.contains_key(t));
        twice || sizes || tags || places || counts || default && !self.wrong("7-without-default")
    }

    pub fn record(&self) -> String {
        let mut words = vec!["default".to_string(), place_word(&self.default)];
        words.extend(["components".to_string(), self.components.len().to_string()]);
        for (t, c) in &self.components {
            words.extend([tag_word(t), c.words()]);
        }
        words.extend(["lists".to_string(), self.lists.len().to_string()]);
        for (t, places) in &self.lists {
            words.extend([tag_word(t), places.len().to_string()]);
            words.extend(places.iter().map(place_word));
        }
        words.join(" ")
    }
}
