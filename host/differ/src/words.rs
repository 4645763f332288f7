//! The line protocol's words (docs/PROTOCOL.md): a line taken apart into a command, and words written.

pub type Tag = Vec<u8>;
pub type Place = Option<Tag>;

/// Each kind with how many numbers and how many inputs it has.
pub const KINDS: [(&str, usize, usize); 15] = [
    ("constant", 1, 0),
    ("sphere", 4, 0),
    ("torus", 5, 0),
    ("Multiply", 0, 2),
    ("Add", 0, 2),
    ("Subtract", 0, 2),
    ("Divide", 0, 2),
    ("Lerp", 1, 2),
    ("VariableLerp", 0, 3),
    ("Remap", 4, 1),
    ("BooleanUnion", 0, 2),
    ("BooleanIntersection", 0, 2),
    ("BooleanDifference", 0, 2),
    ("Offset", 1, 1),
    ("Thickness", 1, 1),
];

#[derive(Clone, Debug)]
pub struct Component {
    pub kind: &'static str,
    pub numbers: Vec<f64>,
}

impl Component {
    pub fn inputs(&self) -> usize {
        KINDS.iter().find(|k| k.0 == self.kind).map_or(0, |k| k.2)
    }

    pub fn words(&self) -> String {
        let numbers = self.numbers.iter().map(|&x| bits_word(x));
        [self.kind.to_string()].into_iter().chain(numbers).collect::<Vec<_>>().join(" ")
    }
}

#[derive(Clone, Debug)]
pub enum Data {
    Value(f64),
    Vec3([f64; 3]),
    Boolean,
}

/// A record as it was written, before 7 is asked.
#[derive(Clone, Debug)]
pub struct Record {
    pub default: Place,
    pub components: Vec<(Tag, Component)>,
    pub lists: Vec<(Tag, Vec<Place>)>,
}

#[derive(Clone, Debug)]
pub enum Command {
    New,
    AddConstant(Tag, Component),
    AddFunction(Tag, Component),
    AddOperation(Tag, Component, Option<Vec<Tag>>),
    AddComponent(Tag, Component),
    AddInput(Tag, Tag, usize),
    RemoveInput(Tag, usize),
    RemoveComponent(Tag),
    RenameComponent(Tag, Tag),
    SetParameter(Tag, Tag, Data),
    Compile(Tag),
    EvaluateAt(Tag, [f64; 3]),
    Dump,
    Load(Record),
    Vec3(String, Vec<f64>),
}

pub fn tag_word(t: &[u8]) -> String {
    if t.is_empty() {
        ".".to_string()
    } else {
        t.iter().map(|b| format!("{b:02x}")).collect()
    }
}

pub fn place_word(p: &Place) -> String {
    p.as_ref().map_or("-".to_string(), |t| tag_word(t))
}

/// One NaN, going out as coming in.
pub fn bits_word(x: f64) -> String {
    format!("{:016x}", one_nan(x).to_bits())
}

fn one_nan(x: f64) -> f64 {
    if x.is_nan() {
        f64::from_bits(0x7ff8_0000_0000_0000)
    } else {
        x
    }
}

/// The words of one line that are still to be read; None where a word is not what it has to be.
struct Words<'a>(std::str::Split<'a, char>);

impl<'a> Words<'a> {
    fn tag(&mut self) -> Option<Tag> {
        let word = self.0.next()?;
        if word == "." {
            return Some(vec![]);
        }
        let digits = word.as_bytes();
        if digits.is_empty() || digits.len() % 2 != 0 || !digits.iter().all(u8::is_ascii_hexdigit) {
            return None;
        }
        let byte = |p: &[u8]| u8::from_str_radix(std::str::from_utf8(p).ok()?, 16).ok();
        digits.chunks(2).map(byte).collect()
    }

    fn tags(&mut self, count: usize) -> Option<Vec<Tag>> {
        (0..count).map(|_| self.tag()).collect()
    }

    fn place(&mut self) -> Option<Place> {
        if self.0.clone().next()? == "-" {
            self.0.next();
            return Some(None);
        }
        self.tag().map(Some)
    }

    fn number(&mut self) -> Option<f64> {
        let word = self.0.next()?;
        let spelled = word.len() == 16 && word.bytes().all(|b| b.is_ascii_hexdigit());
        let bits = u64::from_str_radix(word, 16).ok()?;
        spelled.then(|| one_nan(f64::from_bits(bits)))
    }

    fn numbers(&mut self, count: usize) -> Option<Vec<f64>> {
        (0..count).map(|_| self.number()).collect()
    }

    fn point(&mut self) -> Option<[f64; 3]> {
        Some([self.number()?, self.number()?, self.number()?])
    }

    fn decimal(&mut self) -> Option<usize> {
        let word = self.0.next()?;
        let digits = word.bytes().all(|b| b.is_ascii_digit());
        digits.then(|| word.parse().ok())?
    }

    fn component(&mut self) -> Option<Component> {
        let word = self.0.next()?;
        let &(kind, count, _) = KINDS.iter().find(|k| k.0 == word)?;
        let numbers = self.numbers(count)?;
        Some(Component { kind, numbers })
    }

    fn given(&mut self) -> Option<Option<Vec<Tag>>> {
        match self.0.next()? {
            "none" => Some(None),
            "inputs" => {
                let count = self.decimal()?;
                self.tags(count).map(Some)
            }
            _ => None,
        }
    }

    fn data(&mut self) -> Option<Data> {
        match self.0.next()? {
            "value" => self.number().map(Data::Value),
            "vec3" => self.point().map(Data::Vec3),
            "boolean" => matches!(self.0.next()?, "0" | "1").then_some(Data::Boolean),
            _ => None,
        }
    }

    fn record(&mut self) -> Option<Record> {
        (self.0.next()? == "default").then_some(())?;
        let default = self.place()?;
        (self.0.next()? == "components").then_some(())?;
        let mut components = vec![];
        for _ in 0..self.decimal()? {
            components.push((self.tag()?, self.component()?));
        }
        (self.0.next()? == "lists").then_some(())?;
        let mut lists = vec![];
        for _ in 0..self.decimal()? {
            let (tag, count) = (self.tag()?, self.decimal()?);
            let places = (0..count).map(|_| self.place()).collect::<Option<_>>()?;
            lists.push((tag, places));
        }
        Some(Record { default, components, lists })
    }

    fn operator(&mut self) -> Option<Command> {
        let operator = self.0.next()?;
        let count = match operator {
            "add" | "sub" | "dot" => 6,
            "scale" => 4,
            _ => return None,
        };
        Some(Command::Vec3(operator.to_string(), self.numbers(count)?))
    }

    fn command(&mut self) -> Option<Command> {
        Some(match self.0.next()? {
            "new" => Command::New,
            "add_constant" => {
                let (tag, number) = (self.tag()?, self.number()?);
                Command::AddConstant(tag, Component { kind: "constant", numbers: vec![number] })
            }
            "add_function" => Command::AddFunction(self.tag()?, self.component()?),
            "add_operation" => Command::AddOperation(self.tag()?, self.component()?, self.given()?),
            "add_component" => Command::AddComponent(self.tag()?, self.component()?),
            "add_input" => Command::AddInput(self.tag()?, self.tag()?, self.decimal()?),
            "remove_input" => Command::RemoveInput(self.tag()?, self.decimal()?),
            "remove_component" => Command::RemoveComponent(self.tag()?),
            "rename_component" => Command::RenameComponent(self.tag()?, self.tag()?),
            "set_parameter" => Command::SetParameter(self.tag()?, self.tag()?, self.data()?),
            "compile" => Command::Compile(self.tag()?),
            "evaluate_at" => Command::EvaluateAt(self.tag()?, self.point()?),
            "dump" => Command::Dump,
            "load" => Command::Load(self.record()?),
            "vec3" => self.operator()?,
            _ => return None,
        })
    }
}

/// The command of a line; None where the line is none.
pub fn command(line: &str) -> Option<Command> {
    let mut words = Words(line.split(' '));
    let command = words.command()?;
    words.0.next().is_none().then_some(command)
}
