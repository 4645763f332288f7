//! How much stack each call takes: it is run on a thread whose stack gets smaller and smaller, until the program ends by a fault.
//!
//!     stack            a line for each call
//!     stack CALL KIB   one call on one stack
mod calls;

use calls::{full, Call, CALLS};
use std::error::Error;
use std::process::{Command, Stdio};

/// The smallest stack that the system gives a thread, and more than any call takes.
const LEAST: usize = 16;
const MOST: usize = 16 * 1024;
const PAGE: usize = 4;

fn run((_, call): Call, kib: usize) -> Result<(), Box<dyn Error>> {
    let mut model = full();
    let thread = std::thread::Builder::new().stack_size(kib * 1024);
    thread.spawn(move || call(&mut model))?.join().map_err(|_| "the thread panicked")?;
    Ok(())
}

fn survives(name: &str, kib: usize) -> Result<bool, Box<dyn Error>> {
    let mut again = Command::new(std::env::current_exe()?);
    again.args([name, &kib.to_string()]).stderr(Stdio::null());
    Ok(again.status()?.success())
}

/// The least stack, in whole pages, on which a call comes back.
fn least(name: &str) -> Result<usize, Box<dyn Error>> {
    let (mut low, mut high) = (LEAST / PAGE - 1, MOST / PAGE);
    while low + 1 < high {
        let middle = (low + high) / 2;
        if survives(name, middle * PAGE)? {
            high = middle;
        } else {
            low = middle;
        }
    }
    Ok(high * PAGE)
}

fn main() -> Result<(), Box<dyn Error>> {
    let arguments: Vec<String> = std::env::args().skip(1).collect();
    if let [name, kib] = arguments.as_slice() {
        let call = CALLS.iter().find(|call| call.0 == name).ok_or("no such call")?;
        return run(*call, kib.parse()?);
    }
    for (name, _) in CALLS {
        println!("{name}: {} KiB", least(name)?);
    }
    Ok(())
}
