//! Writes the test vectors below a directory and prints how many there are of each kind.

use std::fs;
use std::io;
use std::path::Path;
use std::process::ExitCode;

use reference::vectors::{all, File};

fn write(directory: &Path, file: &File) -> io::Result<usize> {
    let bytes = file.bytes();
    fs::create_dir_all(directory)?;
    fs::write(directory.join("stdin"), &bytes)?;
    fs::write(directory.join("stdout"), file.expected())?;
    Ok(bytes.len())
}

fn print_tally(file: &File) {
    for (label, count) in &file.tally {
        println!("  {label}: {count}");
    }
}

fn main() -> io::Result<ExitCode> {
    let Some(directory) = std::env::args_os().nth(1) else {
        eprintln!("usage: vectors DIR");
        return Ok(ExitCode::FAILURE);
    };
    for (name, file) in all() {
        let bytes = write(&Path::new(&directory).join(name), &file)?;
        println!("{name}: {} cases, {bytes} bytes", file.len());
        print_tally(&file);
    }
    Ok(ExitCode::SUCCESS)
}
