//! The Rust original behind the line protocol of docs/PROTOCOL.md, to be compared with.
mod commands;
mod component;
mod record;
mod words;

use commands::{command, Model};
use std::io::{self, BufRead, BufReader, BufWriter, Write};
use std::panic::{catch_unwind, set_hook, AssertUnwindSafe};

/// The answer to one line. After a panic the model is as the Rust left it.
fn answer(model: &mut Model, line: &[u8]) -> String {
    let Ok(line) = std::str::from_utf8(line) else {
        return "error the line is not UTF-8".to_string();
    };
    match catch_unwind(AssertUnwindSafe(|| command(model, line))) {
        Ok(Ok(answer)) => answer,
        Ok(Err(fault)) => format!("error {fault}"),
        Err(_) => "panic".to_string(),
    }
}

fn main() -> io::Result<()> {
    set_hook(Box::new(|_| {}));
    let mut input = BufReader::new(io::stdin());
    let mut output = BufWriter::new(io::stdout().lock());
    let mut model = Model::new();
    let mut bytes = vec![];
    while input.read_until(b'\n', &mut bytes)? > 0 {
        let line = bytes.strip_suffix(b"\n").unwrap_or(&bytes);
        if !line.is_empty() && !line.starts_with(b"#") {
            writeln!(output, "{}", answer(&mut model, line))?;
        }
        bytes.clear();
        // Whoever waits for an answer before sending the next line gets it.
        if !input.buffer().contains(&b'\n') {
            output.flush()?;
        }
    }
    Ok(())
}
