//! Runs a report program and a program of exam sheets on many archives and compares every byte that they print with the
//! reference's report and sheets.
//! usage: compare PRODUCT SHEETS

use std::ffi::{OsStr, OsString};
use std::io::{Read, Write};
use std::path::Path;
use std::process::{Child, Command, ExitCode, Stdio};
use std::thread;

use reference::random::Random;
use reference::record::{CYCLE_AT, NUMBER_AT};
use reference::report::{report, INPUT_MOST};
use reference::samples::{busy, put_u16, put_u32, quiet, random_record, RecordBytes};
use reference::sheet::sheets;
use reference::vectors::archive::write;

const SEED: u64 = 0xc033_9a4e;
const ARCHIVES: usize = 320;

fn start(program: &Path) -> Child {
    Command::new(program)
        .stdin(Stdio::piped())
        .stdout(Stdio::piped())
        .spawn()
        .expect("the program")
}

/// What the program prints; it may stop reading a long input early.
fn printed(program: &Path, input: &[u8]) -> Vec<u8> {
    let mut child = start(program);
    let mut stdin = child.stdin.take().expect("its input");
    let input = input.to_vec();
    let writer = thread::spawn(move || {
        // two parts, so that a read comes short
        let half = input.len() / 2;
        let _ = stdin.write_all(&input[..half]);
        let _ = stdin.write_all(&input[half..]);
    });
    let mut text = Vec::new();
    child
        .stdout
        .take()
        .expect("its output")
        .read_to_end(&mut text)
        .expect("its text");
    writer.join().expect("the writer");
    child.wait().expect("its end");
    text
}

/// The program ends where nobody reads on.
fn ends_unread(program: &Path, input: &[u8]) {
    let mut child = start(program);
    let mut stdout = child.stdout.take().expect("its output");
    let mut stdin = child.stdin.take().expect("its input");
    let _ = stdin.write_all(input);
    drop(stdin);
    let mut few = [0; 16];
    let _ = stdout.read(&mut few);
    drop(stdout);
    child.wait().expect("its end");
}

fn title(random: &mut Random) -> Vec<u8> {
    let length = random.below(41);
    (0..length).map(|_| random.between(32, 126) as u8).collect()
}

/// In range or not, accepted or not.
fn any_record(random: &mut Random) -> RecordBytes {
    match random.below(8) {
        0 => busy(random.between(30, 240)),
        1 => quiet(random.between(30, 240)),
        2 => {
            let mut record = busy(60);
            put_u16(&mut record, CYCLE_AT, random.between(0, 60000));
            record
        }
        3 => {
            let mut record = busy(60);
            let at = random.between(4, 67) as usize;
            record[at] = random.below(256) as u8;
            record
        }
        _ => {
            let cycle = random.with_ends(30, 240);
            random_record(random, cycle)
        }
    }
}

/// Records with rising numbers, and one archive in four damaged somewhere.
fn archive(random: &mut Random, records: usize) -> Vec<u8> {
    let mut number = 0;
    let filed: Vec<(RecordBytes, Vec<u8>)> = (0..records)
        .map(|_| {
            number += random.between(1, 9);
            let mut record = any_record(random);
            put_u32(&mut record, NUMBER_AT, number);
            (record, title(random))
        })
        .collect();
    let mut bytes = write(&filed);
    if random.one_in(4) {
        let at = random.below(bytes.len() as u32) as usize;
        bytes[at] = random.below(256) as u8;
    }
    bytes
}

fn inputs() -> Vec<Vec<u8>> {
    let mut random = Random::new(SEED);
    let mut inputs: Vec<Vec<u8>> = (0..ARCHIVES)
        .map(|n| archive(&mut random, n % 24))
        .collect();
    inputs.push(archive(&mut random, 511));
    inputs.push(archive(&mut random, 512));
    inputs.push(write(&[]));
    inputs.push(Vec::new());
    for length in [
        1,
        5,
        6,
        INPUT_MOST - 1,
        INPUT_MOST,
        INPUT_MOST + 1,
        3 * INPUT_MOST,
    ] {
        inputs.push(random.bytes(length));
    }
    // more than is read, with a whole archive at its end
    let mut long = vec![0; INPUT_MOST];
    long.extend(write(&[]));
    inputs.push(long);
    inputs
}

/// Appends the reference's text of an input.
type Text = fn(&[u8], &mut Vec<u8>);

/// On how many of the inputs the program prints another text.
fn count_differing(program: &Path, text: Text, inputs: &[Vec<u8>]) -> usize {
    let mut differing = 0;
    for (n, input) in inputs.iter().enumerate() {
        let mut expected = Vec::new();
        text(&input[..input.len().min(INPUT_MOST + 1)], &mut expected);
        if printed(program, input) != expected {
            println!("input {n} of {} bytes: the text differs", input.len());
            differing += 1;
        }
    }
    // the archive of 511 records, whose text is long
    ends_unread(program, &inputs[ARCHIVES]);
    differing
}

/// Compares one program and prints its line; true where no text differs.
fn same_text(name: &str, program: &OsStr, text: Text, inputs: &[Vec<u8>]) -> bool {
    let differing = count_differing(Path::new(program), text, inputs);
    println!("{name}: {} inputs, {differing} differ", inputs.len());
    differing == 0
}

fn main() -> ExitCode {
    let arguments: Vec<OsString> = std::env::args_os().skip(1).collect();
    let [product, sheet_program] = &arguments[..] else {
        eprintln!("usage: compare PRODUCT SHEETS");
        return ExitCode::FAILURE;
    };
    let inputs = inputs();
    let same_reports = same_text("report", product, report, &inputs);
    let same_sheets = same_text("sheets", sheet_program, sheets, &inputs);
    ExitCode::from(u8::from(!(same_reports && same_sheets)))
}
