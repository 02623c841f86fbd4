//! Reads an archive on standard input and prints its report.
//! usage: report [at-rest]    (at-rest: no cycle is worked that only repeats the one before; the text is the same)

use std::io;
use std::process::ExitCode;

use reference::program::run;
use reference::report::report_ending;

fn main() -> io::Result<ExitCode> {
    run("report", report_ending)
}
