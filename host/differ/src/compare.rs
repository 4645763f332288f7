//! Scripts run on two programs, and every answer and model compared.
use crate::judge::{self, Answered};
use crate::model::Model;
use crate::reference;
use crate::words::{command, Command};
use std::collections::BTreeMap;
use std::io::{self, Read, Write};
use std::process::{Child, Command as Process, Stdio};

pub type Script = Vec<String>;

/// A program that speaks the line protocol: its words.
#[derive(Clone)]
pub struct Program(pub Vec<String>);

impl Program {
    fn start(&self) -> io::Result<Child> {
        let mut process = Process::new(&self.0[0]);
        process.args(&self.0[1..]).stdin(Stdio::piped()).stdout(Stdio::piped()).spawn()
    }

    /// The answers to all lines of a text. A thread writes them, so that as many as the pipes hold are in flight.
    pub fn run(&self, text: String) -> io::Result<Vec<String>> {
        let mut child = self.start()?;
        let mut input = child.stdin.take().ok_or(io::ErrorKind::BrokenPipe)?;
        let writer = std::thread::spawn(move || input.write_all(text.as_bytes()));
        let mut answers = String::new();
        if let Some(mut output) = child.stdout.take() {
            output.read_to_string(&mut answers)?;
        }
        let _ = writer.join();
        child.wait()?;
        Ok(answers.lines().map(str::to_string).collect())
    }
}

/// One command compared.
pub struct Compared {
    pub class: Option<&'static str>,
    /// Where the two answered alike.
    pub alike: bool,
    /// Against the Rust and docs/DIFFERENCES.md: what is not explained.
    pub unexplained: Option<String>,
    /// Against document 01's reference: what is not the same.
    pub undocumented: Option<String>,
    pub ours: Answered,
    pub rust: Answered,
}

/// What is known of a command ahead of the Rust's answer.
struct Step {
    before: Model,
    command: Option<Command>,
    document: Answered,
    departure: Option<judge::Departure>,
    ours: Answered,
}

pub struct Pair {
    pub ours: Program,
    pub rust: Program,
    /// The second program is held to be the reference and not the Rust: no departures.
    pub plain: bool,
}

/// The model of a dump; the broken one where 7 refuses it.
pub fn model_of(dump: &str) -> Model {
    let mut m = Model::new("");
    match dump.strip_prefix("ok ").and_then(|r| command(&format!("load {r}"))) {
        Some(c) => {
            reference::apply(&mut m, &c);
        }
        None => m.broken = true,
    }
    m
}

/// A line that is empty where the program fell silent.
fn next(answers: &mut impl Iterator<Item = String>) -> String {
    answers.next().unwrap_or_default()
}

impl Pair {
    /// Ours on all scripts, each command with what document 01 and the departures say of it.
    fn steps(&self, scripts: &[Script]) -> io::Result<Vec<Vec<Step>>> {
        let mut text = String::new();
        for script in scripts {
            text += "new\n";
            for line in script {
                text += line;
                text += "\ndump\n";
            }
        }
        let mut answers = self.ours.run(text)?.into_iter();
        let mut all = vec![];
        for script in scripts {
            next(&mut answers);
            let mut before = Model::new("");
            let mut steps = vec![];
            for line in script {
                let ours = Answered { answer: next(&mut answers), dump: next(&mut answers) };
                let step = self.step(before, line, ours);
                before = model_of(&step.ours.dump);
                steps.push(step);
            }
            all.push(steps);
        }
        Ok(all)
    }

    fn step(&self, before: Model, line: &str, ours: Answered) -> Step {
        let command = command(line);
        let kept = || Answered { answer: "error".to_string(), dump: judge::dump(&before) };
        let document = command.as_ref().map_or_else(kept, |c| judge::by_document(&before, c));
        let departure = if self.plain { None } else { judge::departure(&before, command.as_ref(), &document) };
        Step { before, command, document, departure, ours }
    }

    /// The other program on the same scripts; after a departure that parts the two models it takes over ours.
    fn others(&self, scripts: &[Script], steps: &[Vec<Step>]) -> io::Result<Vec<Vec<Answered>>> {
        let mut text = String::new();
        for (script, steps) in scripts.iter().zip(steps) {
            text += "new\n";
            for (line, step) in script.iter().zip(steps) {
                text += &format!("{line}\ndump\n");
                if let (true, Some(record)) = (parts(step), step.ours.dump.strip_prefix("ok ")) {
                    text += &format!("load {record}\n");
                }
            }
        }
        let mut answers = self.rust.run(text)?.into_iter();
        let mut all = vec![];
        for steps in steps {
            next(&mut answers);
            let mut other = vec![];
            for step in steps {
                other.push(Answered { answer: next(&mut answers), dump: next(&mut answers) });
                if parts(step) && step.ours.dump.starts_with("ok ") {
                    next(&mut answers);
                }
            }
            all.push(other);
        }
        Ok(all)
    }

    pub fn compare(&self, scripts: &[Script]) -> io::Result<Vec<Vec<Compared>>> {
        let steps = self.steps(scripts)?;
        let others = self.others(scripts, &steps)?;
        let both = steps.into_iter().zip(others);
        Ok(both.map(|(steps, others)| steps.into_iter().zip(others).map(|(s, o)| compared(s, o)).collect()).collect())
    }
}

fn parts(step: &Step) -> bool {
    step.departure.as_ref().is_some_and(|d| d.parts)
}

fn compared(step: Step, rust: Answered) -> Compared {
    let Step { before, command, document, departure, ours } = step;
    let alike = judge::same(&before, command.as_ref(), &ours, &rust);
    let documented = judge::same(&before, command.as_ref(), &ours, &document);
    let unexplained = match &departure {
        None if alike => None,
        None => Some("they differ, and no class allows it".to_string()),
        Some(d) if !judge::same(&before, command.as_ref(), &ours, &document) => {
            Some(format!("{}: ours must answer {}", d.class, document.answer))
        }
        Some(d) if !judge::rust_is(d, &before, &rust) => {
            Some(format!("{}: the Rust does otherwise than told", d.class))
        }
        Some(_) => None,
    };
    let undocumented = (!documented).then(|| format!("document 01: {}", document.answer));
    Compared { class: departure.map(|d| d.class), alike, unexplained, undocumented, ours, rust }
}

/// How often each class came up, and how often the two answered otherwise in it.
#[derive(Default)]
pub struct Counts {
    pub commands: usize,
    pub same: usize,
    pub classes: BTreeMap<&'static str, (usize, usize)>,
    pub answers: BTreeMap<(String, String), usize>,
}

/// An answer by its first word, and the number of a refusal.
pub fn kind_of_answer(answer: &str) -> String {
    let words: Vec<&str> = answer.split(' ').collect();
    match words[0] {
        "refused" => format!("refused {}", words.get(1).unwrap_or(&"")),
        first => first.to_string(),
    }
}

impl Counts {
    pub fn add(&mut self, line: &str, c: &Compared) {
        self.commands += 1;
        match c.class {
            None => self.same += 1,
            Some(class) => {
                let n = self.classes.entry(class).or_default();
                n.0 += 1;
                n.1 += usize::from(!c.alike);
            }
        }
        let word = line.split(' ').next().unwrap_or("").to_string();
        *self.answers.entry((word, kind_of_answer(&c.ours.answer))).or_default() += 1;
    }

    pub fn print(&self, plain: bool) {
        println!("{} commands, each with the model after it", self.commands);
        println!("{:>10} the same answer and model (an order: both have the common property)", self.same);
        for class in judge::CLASSES.iter().filter(|_| !plain) {
            let (arose, differ) = self.classes.get(class).copied().unwrap_or_default();
            println!("{arose:>10} {class}, {differ} of them answered or left otherwise");
        }
        let mut line = String::new();
        let mut last = "";
        for ((word, answer), n) in &self.answers {
            if word != last {
                line += &format!("\n  {word}:");
                last = word;
            }
            line += &format!(" {answer} {n};");
        }
        println!("our answers:{line}");
    }
}
