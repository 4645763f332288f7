//! Speaks the line protocol on standard input and output.
use dotterelwire::console::Console;
use std::io::{self, BufRead, BufReader, BufWriter, Write};

fn main() -> io::Result<()> {
    let mut input = BufReader::new(io::stdin());
    let mut output = BufWriter::new(io::stdout().lock());
    let mut console = Console::new();
    let mut bytes = vec![];
    while input.read_until(b'\n', &mut bytes)? > 0 {
        let line = bytes.strip_suffix(b"\n").unwrap_or(&bytes);
        if let Some(answer) = console.answer(line) {
            writeln!(output, "{answer}")?;
        }
        bytes.clear();
        // whoever waits for an answer before sending the next line gets it
        if !input.buffer().contains(&b'\n') {
            output.flush()?;
        }
    }
    Ok(())
}
