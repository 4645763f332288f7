//! Random scripts over a small alphabet of tags, so that tags collide, lists are left over and names come back.
//!
//! The reference runs along, so that a tag that is present can be chosen more often than chance would.
use crate::model::Model;
use crate::parameter::names;
use crate::random::Random;
use crate::reference::answer;
use crate::words::{bits_word, place_word, tag_word, Tag, KINDS};

/// Numbers that matter: zeros, the ends of the format, subnormals, the bounds of clamp and nearness, a few plain ones.
const NUMBERS: [u64; 32] = [
    0x0000000000000000,
    0x8000000000000000,
    0x3ff0000000000000,
    0xbff0000000000000,
    0x4000000000000000,
    0xc000000000000000,
    0x3fe0000000000000,
    0x3fd0000000000000,
    0x7ff8000000000000,
    0xfff8000000000001,
    0x7ff0000000000000,
    0xfff0000000000000,
    0x0000000000000001,
    0x8000000000000001,
    0x000fffffffffffff,
    0x0010000000000000,
    0x7fefffffffffffff,
    0xffefffffffffffff,
    0x3cb0000000000000,
    0x3ca0000000000000,
    0xbcb0000000000000,
    0x3ff0000000000001,
    0x3fefffffffffffff,
    0x3fb999999999999a,
    0x4008000000000000,
    0x4010000000000000,
    0x4014000000000000,
    0xc008000000000000,
    0x1e60000000000000,
    0x5fe0000000000000,
    0x4024000000000000,
    0x40590ccccccccccd,
];

const NAMES: [&str; 14] = [
    "Centre",
    "Radius",
    "Thickness",
    "Factor",
    "FromMin",
    "FromMax",
    "ToMin",
    "ToMax",
    "Distance",
    "Value",
    "",
    "centre",
    "Radius ",
    "A name that is longer than any parameter has",
];

/// Lines that are no command.
const BAD: [&str; 12] = [
    "add",
    "add_constant 61",
    "add_constant 6 3ff0000000000000",
    "add_constant 61 3ff",
    "new new",
    "compile",
    "compile 6g",
    "add_operation 61 Add inputs 2 61",
    "add_operation 61 Add",
    "set_parameter 61 62 boolean 2",
    "load default - components 1 lists 0",
    "remove_input 61 -1",
];

const CAST: [&str; 13] = [
    "tiny", "tiny", "small", "small", "numbers", "numbers", "numbered", "lengths", "prefixes", "full", "lists",
    "chain", "zeros",
];

fn tags_of(theme: &str) -> Vec<Tag> {
    let x = |n: usize| vec![b'x'; n];
    let with = |n: usize, end: &str| [&x(n), end.as_bytes()].concat();
    let plain = |tags: &[&str]| -> Vec<Tag> { tags.iter().map(|t| t.as_bytes().to_vec()).collect() };
    match theme {
        "tiny" => plain(&["a", "b", "None"]),
        "numbered" => plain(&["a", "a_1", "a_2", "a_1_1", "a_3", "b"]),
        "lengths" => vec![
            x(29),
            x(30),
            x(31),
            x(32),
            x(33),
            with(29, "_1"),
            with(30, "_1"),
            with(30, "_2"),
            with(31, "_1"),
            "é".repeat(16).into_bytes(),
            "é".repeat(17).into_bytes(),
            x(64),
            x(65),
            b"a".to_vec(),
        ],
        "prefixes" => plain(&["", "a", "aa", "a\0", "ab", "b", "é", "None", "none", "A", "\u{7f}"]),
        "full" => [plain(&["", "None", "a", "b"]), vec![x(31), x(32)]].concat(),
        "numbers" => plain(&["a", "b", "c", "d", "e", "f", "g", "h"]),
        _ => plain(&["", "None", "a", "b", "c", "a_1"]),
    }
}

pub struct Generator {
    random: Random,
    tags: Vec<Tag>,
    /// Tags that are not UTF-8 too: only where the Rust is not asked.
    bytes: bool,
    model: Model,
    script: Vec<String>,
}

impl Generator {
    pub fn new(seed: u64, bytes: bool) -> Generator {
        let (random, model) = (Random::new(seed), Model::new(""));
        Generator { random, tags: vec![], bytes, model, script: vec![] }
    }

    fn say(&mut self, line: String) {
        answer(&mut self.model, &line);
        self.script.push(line);
    }

    fn number(&mut self) -> String {
        let bits = match self.random.below(10) {
            0..=1 => self.random.bits() & 1 << 63,
            2..=5 => *self.random.pick(&NUMBERS),
            6 => self.random.bits(),
            7 => (self.random.below(2001) as f64 / 8.0 - 125.0).to_bits(),
            8 => (self.random.below(2_000_001) as f64 / 7919.0 - 126.0).to_bits(),
            _ => (1.0 + self.random.below(1 << 20) as f64 / (1u64 << 33) as f64).to_bits(),
        };
        bits_word(f64::from_bits(bits))
    }

    fn words(&mut self, count: usize) -> String {
        (0..count).map(|_| self.number()).collect::<Vec<_>>().join(" ")
    }

    fn tag(&mut self) -> String {
        tag_word(&self.random.pick(&self.tags).clone())
    }

    /// A tag that has a component, more often than not.
    fn present(&mut self) -> String {
        let held = self.model.components.len();
        if held == 0 || self.random.chance(30) {
            return self.tag();
        }
        let at = self.random.below(held);
        self.model.components.keys().nth(at).map_or(".".to_string(), |t| tag_word(t))
    }

    /// A tag that has a list, more often than not.
    fn listing(&mut self) -> String {
        let held = self.model.lists.len();
        if held == 0 || self.random.chance(20) {
            return self.present();
        }
        let at = self.random.below(held);
        self.model.lists.keys().nth(at).map_or(".".to_string(), |t| tag_word(t))
    }

    fn component(&mut self, first: usize, count: usize) -> String {
        let (kind, numbers, _) = KINDS[first + self.random.below(count)];
        if numbers == 0 {
            kind.to_string()
        } else {
            format!("{kind} {}", self.words(numbers))
        }
    }

    fn given(&mut self, kind: &str) -> String {
        let inputs = KINDS.iter().find(|k| kind.split(' ').next() == Some(k.0)).map_or(0, |k| k.2);
        let count = if self.random.chance(92) { inputs } else { self.random.below(6) };
        let tags: Vec<String> = (0..count).map(|_| self.present()).collect();
        match self.random.below(5) {
            0 => "none".to_string(),
            _ if tags.is_empty() => "inputs 0".to_string(),
            _ => format!("inputs {count} {}", tags.join(" ")),
        }
    }

    fn index(&mut self) -> String {
        match self.random.below(60) {
            0 => "4294967296".to_string(),
            1 => "9999999999999999999".to_string(),
            2..=40 => self.random.below(2).to_string(),
            _ => self.random.below(4).to_string(),
        }
    }

    fn adding(&mut self) -> String {
        let other = self.random.chance(2);
        match self.random.below(10) {
            0..=1 => format!("add_constant {} {}", self.tag(), self.number()),
            2..=3 => {
                let c = if other { self.component(0, 15) } else { self.component(1, 2) };
                format!("add_function {} {c}", self.tag())
            }
            4..=7 => {
                let c = if other { self.component(0, 3) } else { self.component(3, 12) };
                format!("add_operation {} {c} {}", self.tag(), self.given(&c))
            }
            _ => {
                let c = self.component(0, 15);
                format!("add_component {} {c}", self.tag())
            }
        }
    }

    /// A name that the component has, more often than not, with data that fits, more often than not.
    fn setting(&mut self) -> String {
        let t = self.present();
        let component = self.model.components.iter().find(|(k, _)| tag_word(k) == t);
        let known = component.map_or(&[][..], |(_, c)| names(c.kind));
        let name = if known.is_empty() || self.random.chance(20) {
            *self.random.pick(&NAMES)
        } else {
            self.random.pick(known).0
        };
        let fits = !self.random.chance(15);
        let near = component.and_then(|(_, c)| c.numbers.get(self.random.below(c.numbers.len().max(1))).copied());
        let data = match (name, fits) {
            ("FromMin" | "FromMax" | "ToMin" | "ToMax", true) if self.random.chance(60) => {
                self.near(near.unwrap_or(0.0))
            }
            ("Centre", true) | (_, false) if self.random.chance(80) => {
                format!("vec3 {}", self.words(3))
            }
            (_, true) => format!("value {}", self.number()),
            _ => format!("boolean {}", self.random.below(2)),
        };
        format!("set_parameter {t} {} {data}", tag_word(name.as_bytes()))
    }

    /// A number that is near another, by the bound or by half of it.
    fn near(&mut self, x: f64) -> String {
        let by = *self.random.pick(&[0.0, f64::EPSILON, f64::EPSILON / 2.0, -f64::EPSILON, f64::EPSILON * 1.5]);
        format!("value {}", bits_word(x + by))
    }

    fn operator(&mut self) -> String {
        let operator = *self.random.pick(&["add", "sub", "dot", "scale"]);
        let count = if operator == "scale" { 4 } else { 6 };
        format!("vec3 {operator} {}", self.words(count))
    }

    /// A line; the calm ones remove and rename little, so that forms grow and are asked.
    fn line(&mut self, calm: bool) -> String {
        if self.model.broken && self.random.chance(25) {
            return "new".to_string();
        }
        let evaluating = |g: &mut Generator| format!("evaluate_at {} {}", g.present(), g.words(3));
        match self.random.below(100) {
            0..=29 => self.adding(),
            30..=43 => format!("add_input {} {} {}", self.listing(), self.present(), self.index()),
            44..=62 if calm => evaluating(self),
            44..=49 => format!("remove_input {} {}", self.listing(), self.index()),
            50..=55 => format!("remove_component {}", self.present()),
            56..=64 => format!("rename_component {} {}", self.present(), self.tag()),
            65..=75 => self.setting(),
            76..=83 => format!("compile {}", self.present()),
            84..=96 => evaluating(self),
            97 => self.operator(),
            98 => self.random.pick(&BAD).to_string(),
            _ => self.record(),
        }
    }

    /// A record that may or may not pass 7: what is held now, or made up, and sometimes broken.
    fn record(&mut self) -> String {
        if self.random.chance(70) {
            return format!("load {}", self.model.record());
        }
        let lists: Vec<String> = (0..self.random.below(4)).map(|_| self.listed(3)).collect();
        let held: Vec<String> =
            (0..self.random.below(4)).map(|_| format!("{} {}", self.tag(), self.component(0, 15))).collect();
        let default = if self.random.chance(50) { "-".to_string() } else { self.tag() };
        let parts = ["default".to_string(), default, "components".to_string(), held.len().to_string()];
        let words = parts.into_iter().chain(held).chain(["lists".to_string(), lists.len().to_string()]).chain(lists);
        format!("load {}", words.collect::<Vec<_>>().join(" "))
    }

    fn listed(&mut self, most: usize) -> String {
        let count = if self.random.chance(95) { 1 + self.random.below(most) } else { self.random.below(5) };
        let place = |g: &mut Generator| {
            if g.random.chance(30) {
                "-".to_string()
            } else {
                g.present()
            }
        };
        let places: Vec<String> = (0..count).map(|_| place(self)).collect();
        [vec![self.tag(), count.to_string()], places].concat().join(" ")
    }

    /// Close to 64 components.
    fn fill(&mut self) {
        for i in 0..60 + self.random.below(5) {
            let t = tag_word(format!("c{i}").as_bytes());
            let line = match self.random.below(3) {
                0 => format!("add_operation {t} Add inputs 2 {} {}", self.present(), self.present()),
                _ => format!("add_constant {t} {}", self.number()),
            };
            self.say(line);
        }
    }

    /// Close to 128 lists, most of them left over.
    fn fill_lists(&mut self) {
        let count = 124 + self.random.below(5);
        let lists: Vec<String> =
            (0..count).map(|i| format!("{} 1 {}", tag_word(format!("l{i}").as_bytes()), place_word(&None))).collect();
        self.say(format!("load default - components 0 lists {count} {}", lists.join(" ")));
    }

    /// Operations that are each wired twice to the one before: the Rust's walk doubles with each. What the walk finds at
    /// the end is nothing, a gap, or (where the first is wired to the last) the target.
    fn chain(&mut self) {
        let first = if self.random.chance(50) { "constant 3ff0000000000000" } else { "Offset 0000000000000000" };
        self.say(format!("add_component 6b30 {first}"));
        let last = 16 + self.random.below(14);
        let name = |i: usize| tag_word(format!("k{i}").as_bytes());
        for i in 1..=last {
            self.say(format!("add_operation {} Add inputs 2 {} {}", name(i), name(i - 1), name(i - 1)));
        }
        self.say("add_operation 61 Add none".to_string());
        for target in ["61".to_string(), name(0), name(1)] {
            let source = name(last - self.random.below(8));
            let line = format!("add_input {target} {source} {}", self.index());
            self.say(line);
        }
    }

    /// Zeros of both signs under min, max and what tells them apart.
    fn zeros(&mut self) {
        for (t, bits) in [("7a30", "0000000000000000"), ("7a31", "8000000000000000"), ("7a32", "3ff0000000000000")] {
            self.say(format!("add_constant {t} {bits}"));
        }
        for i in 0..6 {
            let kind =
                *self.random.pick(&["BooleanUnion", "BooleanIntersection", "BooleanDifference", "Divide", "Multiply"]);
            let t = tag_word(format!("y{i}").as_bytes());
            let line = format!("add_operation {t} {kind} inputs 2 {} {}", self.present(), self.present());
            self.say(line);
        }
        let line = format!("add_operation 7930 Thickness {} inputs 1 {}", self.number(), self.present());
        self.say(line);
    }

    /// One script of some 10 to 90 commands.
    pub fn script(&mut self) -> Vec<String> {
        let theme = *self.random.pick(&CAST);
        self.tags = tags_of(theme);
        if self.bytes {
            self.tags.extend([vec![0xff], vec![0x80, 0x61], vec![0xff; 32]]);
        }
        self.model = Model::new("");
        self.script = vec![];
        match theme {
            "full" => self.fill(),
            "lists" => self.fill_lists(),
            "chain" => self.chain(),
            "zeros" => self.zeros(),
            _ => {}
        }
        for _ in 0..10 + self.random.below(80) {
            let line = self.line(theme == "numbers" || theme == "zeros");
            self.say(line);
        }
        std::mem::take(&mut self.script)
    }
}
