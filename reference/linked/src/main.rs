//! Compares the library, linked over its C interface, with the reference: every number that its calls return or write.
//! It prints one line of counts, or the first case that differs.

mod archives;
mod points;
mod records;
mod same;
mod sheets;

use std::process::ExitCode;

use linked::calls;
use reference::random::Random;

use crate::archives::compare_archive;
use crate::points::compare_points;
use crate::records::{compare_record, KINDS};
use crate::same::{same_list, Same, Tally};
use crate::sheets::compare_sheet;

const SEED: u64 = 0x11_47ed;
const RECORDS: u32 = 1760 * KINDS;
const POINTS: u32 = 700 * KINDS;
const SHEETS: u32 = 300 * KINDS;
const ARCHIVES: u32 = 2400;

/// What a call on a record can answer, with points and with a page too, and what the calls on archives can.
const RECORD_NUMBERS: [u32; 12] = [0, 6, 7, 8, 9, 10, 11, 12, 13, 14, 15, 16];
const POINT_NUMBERS: [u32; 14] = [0, 6, 7, 8, 9, 10, 11, 12, 13, 14, 15, 16, 19, 20];
const SHEET_NUMBERS: [u32; 13] = [0, 6, 7, 8, 9, 10, 11, 12, 13, 14, 15, 16, 21];
const ARCHIVE_NUMBERS: [u32; 9] = [0, 1, 2, 3, 4, 5, 6, 17, 18];

fn all_records(tally: &mut Tally) -> Same {
    let mut random = Random::new(SEED);
    (0..RECORDS).try_for_each(|n| compare_record(&mut random, n, tally))?;
    tally.met("record", &RECORD_NUMBERS)
}

/// Every number of points must be accepted, too.
fn all_points(tally: &mut Tally) -> Same {
    let mut random = Random::new(SEED + 2);
    let mut counts = Tally::default();
    (0..POINTS).try_for_each(|n| compare_points(&mut random, n, tally, &mut counts))?;
    counts.met("accepted count of points", &[0, 1, 2, 3, 4, 5, 6, 7, 8])?;
    tally.met("record with points", &POINT_NUMBERS)
}

/// Page buffers of the lengths about the page's must be met, too.
fn all_sheets(tally: &mut Tally) -> Same {
    let mut random = Random::new(SEED + 3);
    let mut pages = Tally::default();
    (0..SHEETS).try_for_each(|n| compare_sheet(&mut random, n, tally, &mut pages))?;
    pages.met("length of a page buffer", &[0, 4379, 4380, 4381])?;
    tally.met("sheet of a record", &SHEET_NUMBERS)
}

fn all_archives(tally: &mut Tally, sheets: &mut Tally) -> Same {
    let mut random = Random::new(SEED + 1);
    (0..ARCHIVES).try_for_each(|n| compare_archive(&mut random, n, tally, sheets))?;
    sheets.met("sheets of an archive", &[0, 17])?;
    tally.met("call on an archive", &ARCHIVE_NUMBERS)
}

/// A record of no bytes is 6, an archive of none 1, a text buffer of none 17; a null pointer of length 0 is never read.
fn null_slices() -> Same {
    same_list(
        "nulls",
        &calls::numbers_of_nulls(),
        &[6, 6, 6, 6, 1, 1, 1, 1, 1, 17, 17],
    )
}

fn main() -> ExitCode {
    let mut records = Tally::default();
    let mut points = Tally::default();
    let mut sheets = Tally::default();
    let mut archives = Tally::default();
    let mut archive_sheets = Tally::default();
    let compared = null_slices()
        .and_then(|()| all_records(&mut records))
        .and_then(|()| all_points(&mut points))
        .and_then(|()| all_sheets(&mut sheets))
        .and_then(|()| all_archives(&mut archives, &mut archive_sheets));
    match compared {
        Ok(()) => {
            let [r, p, s] = [&records, &points, &sheets].map(Tally::text);
            let [a, t] = [&archives, &archive_sheets].map(Tally::text);
            println!("linked: {RECORDS} records ({r}), {POINTS} with points ({p}), {SHEETS} sheets ({s}), {ARCHIVES} archives ({a}), sheets of some ({t}), none differ");
            ExitCode::SUCCESS
        }
        Err(difference) => {
            println!("linked: {difference}");
            ExitCode::FAILURE
        }
    }
}
