//! A program that reads an archive on standard input and prints a text of it.

use std::io::{self, Read, Write};
use std::process::ExitCode;

use crate::dispersion::Ending;
use crate::report::INPUT_MOST;

/// The program's one argument is the ending, if any.
fn ending() -> Option<Ending> {
    match std::env::args().nth(1).as_deref() {
        None => Some(Ending::AllCycles),
        Some("at-rest") => Some(Ending::AtRest),
        Some(_) => None,
    }
}

/// Runs the program of this name; `print` appends the text of an input.
pub fn run(name: &str, print: impl FnOnce(&[u8], Ending, &mut Vec<u8>)) -> io::Result<ExitCode> {
    let Some(ending) = ending() else {
        eprintln!("usage: {name} [at-rest]");
        return Ok(ExitCode::FAILURE);
    };
    let mut input = Vec::with_capacity(INPUT_MOST + 1);
    io::stdin()
        .lock()
        .take(INPUT_MOST as u64 + 1)
        .read_to_end(&mut input)?;
    let mut text = Vec::with_capacity(1 << 17);
    print(&input, ending, &mut text);
    io::stdout().lock().write_all(&text)?;
    Ok(ExitCode::SUCCESS)
}
