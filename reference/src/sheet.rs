//! The exam sheet: one record on one page of fixed lines, and the sheets of an archive.

use crate::archive::COUNT_MOST;
use crate::dispersion::Ending;
use crate::record::THROUGH;
use crate::refusal::{self, Refusal};
use crate::report::{first_lines, print_archive, print_to, refused_line, Profiles};
use crate::working::{accept, write_unseen, Refused, Working};

pub const COLUMNS: usize = 72;
pub const LINES: usize = 60;
/// A line ends in a newline.
const LINE_BYTES: usize = COLUMNS + 1;
pub const PAGE_BYTES: usize = LINES * LINE_BYTES;

/// A lent buffer under this is refused: with this room no sheet of an archive is cut.
pub const SHEETS_ROOM: usize = COUNT_MOST * PAGE_BYTES;

/// Columns of a pair flow, and of a step's flow in thousands.
const PAIR_WIDTH: usize = 11;
const STEP_WIDTH: usize = 7;
const STEPS_IN_ROW: usize = 10;
const THOUSAND: u32 = 1000;

/// Works a record and writes its sheet to the front of `page`; bytes beyond stay. A refusal writes nothing.
pub fn sheet(
    bytes: &[u8],
    page: &mut [u8],
    output: &mut [u32],
    first: &mut [u32],
    second: &mut [u32],
) -> Result<Working, Refused> {
    sheet_ending(bytes, Ending::AllCycles, page, output, first, second)
}

/// As `sheet`, with a choice of how many cycles are worked.
pub fn sheet_ending(
    bytes: &[u8],
    ending: Ending,
    page: &mut [u8],
    output: &mut [u32],
    first: &mut [u32],
    second: &mut [u32],
) -> Result<Working, Refused> {
    let (record, decision) = accept(bytes, output, first, second)?;
    let page = page.get_mut(..PAGE_BYTES).ok_or(refusal::PAGE)?;
    let working = write_unseen(&record, &decision, ending, output, first, second);
    let cycle = record.cycle as usize;
    let through = &output[THROUGH * cycle..(THROUGH + 1) * cycle];
    fill(page, &first_lines(bytes, &working), &working, through);
    Ok(working)
}

/// Appends the sheets of an archive to `text`, a page for each record.
pub fn sheets(input: &[u8], text: &mut Vec<u8>) {
    sheets_ending(input, Ending::AllCycles, text);
}

/// As `sheets`, with a choice of how many cycles are worked.
pub fn sheets_ending(input: &[u8], ending: Ending, text: &mut Vec<u8>) {
    let Profiles {
        mut output,
        mut first,
        mut second,
    } = Profiles::new();
    print_archive(input, text, |text, record| {
        let start = text.len();
        text.resize(start + PAGE_BYTES, 0);
        let page = &mut text[start..];
        let made = sheet_ending(record, ending, page, &mut output, &mut first, &mut second);
        if let Err(refused) = made {
            fill_refused(page, refused_line(record, refused.number));
        }
    });
}

/// The sheets of an archive to the front of a lent buffer; their length is returned, and bytes beyond stay.
pub fn sheets_to(input: &[u8], buffer: &mut [u8]) -> Result<usize, Refusal> {
    print_to(buffer, SHEETS_ROOM, |text| sheets(input, text))
}

/// The page of an accepted record: the line of the whole, the pair flows of each entry, the lines of the signalised exits,
/// the through exit's run.
fn fill(page: &mut [u8], texts: &[String; 4], working: &Working, through: &[u32]) {
    let (whole, exits) = texts.split_at(1);
    let mut lines = blank_lines(page);
    put_texts(&mut lines, whole);
    for (flows, line) in working.flows.iter().zip(&mut lines) {
        put_numbers(line, PAIR_WIDTH, flows.iter().copied());
    }
    put_texts(&mut lines, exits);
    for (flows, line) in through.chunks(STEPS_IN_ROW).zip(&mut lines) {
        put_numbers(line, STEP_WIDTH, flows.iter().map(|flow| flow / THOUSAND));
    }
}

/// The page of a refused record of an archive.
fn fill_refused(page: &mut [u8], text: String) {
    put_texts(&mut blank_lines(page), &[text]);
}

/// Makes the page blank and gives its lines without their newlines.
fn blank_lines(page: &mut [u8]) -> impl Iterator<Item = &mut [u8]> {
    page.fill(b' ');
    for line in page.chunks_exact_mut(LINE_BYTES) {
        line[COLUMNS] = b'\n';
    }
    let lines = page.chunks_exact_mut(LINE_BYTES);
    lines.map(|line| &mut line[..COLUMNS])
}

/// Each text at the start of the next line. The longest has 54 bytes.
fn put_texts<'a>(lines: &mut impl Iterator<Item = &'a mut [u8]>, texts: &[String]) {
    for (text, line) in texts.iter().zip(lines) {
        line[..text.len()].copy_from_slice(text.as_bytes());
    }
}

/// Numbers one after another, each right-aligned in its column.
fn put_numbers(line: &mut [u8], width: usize, numbers: impl Iterator<Item = u32>) {
    for (column, number) in line.chunks_exact_mut(width).zip(numbers) {
        put_number(column, number);
    }
}

/// A number at the end of its blank column; every u32 has fewer digits than a pair's column, its thousands no more than a step's.
fn put_number(column: &mut [u8], mut number: u32) {
    for place in column.iter_mut().rev() {
        *place = b'0' + (number % 10) as u8;
        number /= 10;
        if number == 0 {
            return;
        }
    }
}
