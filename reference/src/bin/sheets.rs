//! Reads an archive on standard input and prints its exam sheets.
//! usage: sheets [at-rest]    (at-rest: no cycle is worked that only repeats the one before; the sheets are the same)

use std::io;
use std::process::ExitCode;

use reference::program::run;
use reference::sheet::sheets_ending;

fn main() -> io::Result<ExitCode> {
    run("sheets", sheets_ending)
}
