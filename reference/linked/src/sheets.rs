//! Random records, their exam sheets made by both.

use reference::random::Random;
use reference::sheet::{sheet, PAGE_BYTES};

use linked::calls::{self, WorkAnswer};

use crate::records::{
    cycle, expected_working, lengths, library_working, numbers, profiles_before, record,
    same_profiles, Profiles, KINDS,
};
use crate::same::{same_list, Same, Tally};

/// `tally` counts the numbers, `pages` the lengths of the page buffers.
pub fn compare_sheet(random: &mut Random, n: u32, tally: &mut Tally, pages: &mut Tally) -> Same {
    let cycle = cycle(random, n);
    let record = record(random, n % KINDS, cycle);
    let [output, first, second, _] = lengths(random, cycle as usize);
    let profiles = profiles_before([output, first, second]);
    let length = page_length(random);
    // what an earlier call or anything else has left
    let old = random.bytes(length);
    pages.count(length as u32);
    let number = compare_with_reference(&record, &old, &profiles);
    let compared = number.and_then(|number| {
        tally.count(number);
        match number {
            0 => compare_with_working(&record, &old, &profiles),
            _ => Ok(()),
        }
    });
    compared.map_err(|difference| {
        let lengths = [length, output, first, second];
        format!("sheet of record {n}: {difference}; lengths {lengths:?}, bytes {record:?}")
    })
}

/// Just enough, one byte less or more, none, any less, some more.
fn page_length(random: &mut Random) -> usize {
    match random.below(16) {
        0 => 0,
        1 => PAGE_BYTES - 1,
        2 => PAGE_BYTES + 1,
        3 => random.below(PAGE_BYTES as u32) as usize,
        4 | 5 => PAGE_BYTES + random.below(200) as usize,
        _ => PAGE_BYTES,
    }
}

fn library_sheet(record: &[u8], page: &mut [u8], profiles: &mut Profiles) -> WorkAnswer {
    let [output, first, second] = profiles;
    calls::segment_sheet(record, page, output, first, second)
}

/// The number of both.
fn compare_with_reference(record: &[u8], old: &[u8], before: &Profiles) -> Result<u32, String> {
    let (mut told_page, mut told_profiles) = (old.to_vec(), before.clone());
    let told = library_sheet(record, &mut told_page, &mut told_profiles);
    let (mut page, mut profiles) = (old.to_vec(), before.clone());
    let [output, first, second] = &mut profiles;
    let expected = expected_working(&sheet(record, &mut page, output, first, second));
    same_list("sheet", &numbers(&told), &numbers(&expected))?;
    same_list("page", &told_page, &page)?;
    same_profiles(&told_profiles, &profiles)?;
    Ok(expected.number)
}

/// An accepted record's answer and profiles are those of the library's own working.
fn compare_with_working(record: &[u8], old: &[u8], before: &Profiles) -> Same {
    let (mut with_page, mut without) = (before.clone(), before.clone());
    let told = library_sheet(record, &mut old.to_vec(), &mut with_page);
    let expected = library_working(record, &mut without);
    let what = "sheet beside the working";
    same_list(what, &numbers(&told), &numbers(&expected))?;
    same_profiles(&with_page, &without)
}
