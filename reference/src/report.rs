//! The text that the product program prints.

use std::io::Write;

use crate::archive::read;
use crate::dispersion::Ending;
use crate::record::{read_u16, read_u32, CYCLE_AT, CYCLE_MOST, LEFT, NUMBER_AT, RIGHT, THROUGH};
use crate::refusal::{self, Refusal};
use crate::working::{work_ending, Working};

/// Input longer than this is refused whatever it holds.
pub const INPUT_MOST: usize = 65536;

/// A lent buffer under this is refused: with this room no text is cut.
pub const TEXT_ROOM: usize = 262_144;

const STEPS: usize = CYCLE_MOST as usize;

/// Profiles that are long enough for every record.
pub(crate) struct Profiles {
    pub(crate) output: [u32; 4 * STEPS],
    pub(crate) first: [u32; STEPS],
    pub(crate) second: [u32; STEPS],
}

impl Profiles {
    pub(crate) fn new() -> Profiles {
        Profiles {
            output: [0; 4 * STEPS],
            first: [0; STEPS],
            second: [0; STEPS],
        }
    }
}

/// Appends the report of an archive to `text`.
pub fn report(input: &[u8], text: &mut Vec<u8>) {
    report_ending(input, Ending::AllCycles, text);
}

/// As `report`, with a choice of how many cycles are worked.
pub fn report_ending(input: &[u8], ending: Ending, text: &mut Vec<u8>) {
    let Profiles {
        mut output,
        mut first,
        mut second,
    } = Profiles::new();
    print_archive(input, text, |text, record| {
        match work_ending(record, ending, &mut output, &mut first, &mut second) {
            Ok(working) => print_working(text, record, &working),
            Err(refused) => print(text, &refused_line(record, refused.number)),
        }
    });
}

/// The report of an archive to the front of a lent buffer; its length is returned, and bytes beyond stay.
pub fn report_to(input: &[u8], buffer: &mut [u8]) -> Result<usize, Refusal> {
    print_to(buffer, TEXT_ROOM, |text| report(input, text))
}

/// Appends the text of an archive: what `print_record` makes of each record in order, or the line of a refused archive.
pub(crate) fn print_archive(
    input: &[u8],
    text: &mut Vec<u8>,
    mut print_record: impl FnMut(&mut Vec<u8>, &[u8]),
) {
    if input.len() > INPUT_MOST {
        return refuse(text, refusal::ARCHIVE_TRAILER);
    }
    let archive = match read(input) {
        Ok(archive) => archive,
        Err(number) => return refuse(text, number),
    };
    for place in archive.records() {
        print_record(text, archive.record_at(place));
    }
}

/// A text to the front of a lent buffer that has the room; its length is returned, and bytes beyond stay.
pub(crate) fn print_to(
    buffer: &mut [u8],
    room: usize,
    print_all: impl FnOnce(&mut Vec<u8>),
) -> Result<usize, Refusal> {
    if buffer.len() < room {
        return Err(refusal::BUFFER);
    }
    let mut text = Vec::new();
    print_all(&mut text);
    buffer[..text.len()].copy_from_slice(&text);
    Ok(text.len())
}

/// Writing to a vector does not fail.
fn print(text: &mut Vec<u8>, line: &str) {
    writeln!(text, "{line}").expect("a vector takes all bytes");
}

fn refuse(text: &mut Vec<u8>, number: Refusal) {
    print(text, &format!("drawer refused {number}"));
}

fn print_working(text: &mut Vec<u8>, record: &[u8], working: &Working) {
    let Working {
        access_total,
        blocked,
        ..
    } = working;
    for line in first_lines(record, working) {
        print(text, &line);
    }
    print(text, &format!("exit a total {access_total}"));
    print(text, &format!("blocked {blocked} of {}", cycle_of(record)));
}

/// The line of a refused record.
pub(crate) fn refused_line(record: &[u8], refused: Refusal) -> String {
    format!("card {} refused {refused}", number_of(record))
}

/// The first lines of an accepted record, which its sheet has, too: of the whole, then of each signalised exit.
pub(crate) fn first_lines(record: &[u8], working: &Working) -> [String; 4] {
    let (number, cycle) = (number_of(record), cycle_of(record));
    let Working { shift, rounds, .. } = working;
    let exit = |name: char, j: usize| {
        let figures = &working.exits[j];
        let (total, green, permille) = (figures.total, figures.green, figures.permille);
        format!("exit {name} total {total} green {green} permille {permille}")
    };
    [
        format!("card {number} cycle {cycle} shift {shift} rounds {rounds}"),
        exit('l', LEFT),
        exit('t', THROUGH),
        exit('r', RIGHT),
    ]
}

fn number_of(record: &[u8]) -> u32 {
    read_u32(record, NUMBER_AT)
}

fn cycle_of(record: &[u8]) -> u32 {
    read_u16(record, CYCLE_AT)
}
