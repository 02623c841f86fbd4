//! Vectors of the discharge call.

use super::faults::{fault_pairs, faults, Fault};
use super::metered::{at_capacity, cut_records, little_alone, order_records, random_of_kind};
use super::range_ends::{
    green_ends, headway_ends, number_ends, running_time_ends, seed_ends, volume_ends,
};
use super::{product, profile_before, Body, File, OUTPUT_BEFORE};
use crate::discharge::discharge;
use crate::random::Random;
use crate::record::{read_u16, ACCESS_AT, CYCLE_AT, CYCLE_LEAST, CYCLE_MOST};
use crate::refusal::GREEN;
use crate::samples::{busy, put_entry, put_exits, put_seeds, put_u16, quiet, RecordBytes};

const SEED: u64 = 0x0101_d15c;

pub fn file() -> File {
    let mut file = File::default();
    add_lengths(&mut file);
    add_range_ends(&mut file);
    add_extremes(&mut file);
    add_greens(&mut file);
    add_metered(&mut file);
    add_refused_by_volume(&mut file);
    add_faults(&mut file);
    add_random(&mut file);
    let record = busy(CYCLE_LEAST);
    file.push("wrong".into(), case(&record, 90, 1).1);
    file
}

/// A case; `off` is added to the last number of the profile.
fn case(record: &[u8], length: usize, off: u32) -> (u32, Body) {
    let mut profile = profile_before(OUTPUT_BEFORE, length);
    let result = discharge(record, &mut profile);
    let number = result.err().unwrap_or(0);
    if let Some(last) = profile.last_mut() {
        *last += off;
    }
    let mut body = Body::default();
    body.short(record.len());
    body.bytes(record);
    body.short(length);
    body.word(number);
    body.words(&result.unwrap_or([0; 3]));
    body.words(&profile);
    (number, body)
}

fn add(file: &mut File, record: &[u8], length: usize) {
    let (number, body) = case(record, length, 0);
    file.push(format!("{number}"), body);
}

fn add_full(file: &mut File, cycle: u32, record: &RecordBytes) {
    add(file, record, 3 * cycle as usize);
}

/// Lengths of the profile, then of the record.
fn add_lengths(file: &mut File) {
    for cycle in [CYCLE_LEAST, 31, 60, CYCLE_MOST] {
        add_profile_lengths(file, cycle);
    }
    add_record_lengths(file);
}

fn add_profile_lengths(file: &mut File, cycle: u32) {
    let exact = 3 * cycle as usize;
    for length in [0, 1, exact - 1, exact, exact + 1, exact + 37] {
        add(file, &busy(cycle), length);
    }
}

fn add_record_lengths(file: &mut File) {
    let long = [busy(30), busy(30)].concat();
    for (length, profile) in product(&[0, 1, 4, 67, 68, 69, 136], &[90, 89, 0]) {
        add(file, &long[..length], profile);
    }
}

/// Every field at both ends of its range.
fn add_range_ends(file: &mut File) {
    for cycle in [CYCLE_LEAST, CYCLE_MOST] {
        add_all(file, cycle, &volume_ends(cycle));
        add_all(file, cycle, &green_ends(cycle));
    }
    add_all(file, CYCLE_LEAST, &running_time_ends());
    add_all(file, CYCLE_LEAST, &headway_ends());
    add_all(file, CYCLE_LEAST, &number_ends());
    add_all(file, CYCLE_LEAST, &seed_ends());
}

fn add_all(file: &mut File, cycle: u32, records: &[RecordBytes]) {
    for record in records {
        add_full(file, cycle, record);
    }
}

/// All three entries with the most and the least at once.
fn add_extremes(file: &mut File) {
    for (cycle, on_green) in product(&[CYCLE_LEAST, 59, CYCLE_MOST], &[0, 1, 999, 1000]) {
        let mut record = busy(cycle);
        put_entry(&mut record, 0, [6000, 12000, cycle - 1, cycle, on_green]);
        put_entry(
            &mut record,
            1,
            [6000, 12000, cycle / 2, cycle / 2, on_green],
        );
        put_entry(&mut record, 2, [6000, 1, cycle - 1, 2, on_green]);
        add_full(file, cycle, &record);
    }
}

/// Every start post, with no green, full greens and greens past the end.
fn add_greens(file: &mut File) {
    let cycle = CYCLE_LEAST;
    for start in 0..cycle {
        let mut record = quiet(cycle);
        put_entry(
            &mut record,
            0,
            [900, 1900, start, start * 7 % 31, 40 * (start % 26)],
        );
        put_entry(&mut record, 1, [400, 1800, start, cycle - start, 500]);
        put_entry(
            &mut record,
            2,
            [333, 1777, start, (cycle - start + 1).min(cycle), 1000],
        );
        add_full(file, cycle, &record);
    }
    let mut example = quiet(60);
    put_entry(&mut example, 0, [600, 1800, 0, 30, 500]);
    put_entry(&mut example, 1, [600, 1800, 55, 30, 500]);
    put_entry(&mut example, 2, [1000, 1800, 55, 10, 0]);
    add_full(file, 60, &example);
}

/// Volumes about the capacity, discharges under one vehicle an hour, and those that show how G is cut.
fn add_metered(file: &mut File) {
    let records = [
        at_capacity(),
        little_alone(),
        cut_records(),
        order_records(),
    ];
    for record in records.concat() {
        add_full(file, read_u16(&record, CYCLE_AT), &record);
    }
}

/// Records that the working refuses with 13, 14 and 15, and this call does not.
fn add_refused_by_volume(file: &mut File) {
    for record in refused_by_volume() {
        add_full(file, CYCLE_LEAST, &record);
        add(file, &record, 89);
    }
}

/// Two records for each of 13, 14 and 15.
pub fn refused_by_volume() -> [RecordBytes; 6] {
    let mut no_exit = busy(CYCLE_LEAST);
    put_exits(&mut no_exit, [0; 4]);
    let mut exit_unserved = busy(CYCLE_LEAST);
    put_seeds(&mut exit_unserved, &[[30, 30, 40, 0]; 4]);
    let mut entry_unserved = busy(CYCLE_LEAST);
    put_exits(&mut entry_unserved, [0, 0, 0, 500]);
    let mut unsettled = quiet(CYCLE_LEAST);
    put_entry(&mut unsettled, 1, [10, 1800, 0, 15, 500]);
    put_u16(&mut unsettled, ACCESS_AT, 90);
    put_exits(&mut unsettled, [0, 10, 0, 90]);
    let mut stopped = quiet(CYCLE_LEAST);
    put_entry(&mut stopped, 1, [3000, 6000, 0, 30, 500]);
    put_u16(&mut stopped, ACCESS_AT, 3000);
    put_exits(&mut stopped, [0, 1, 0, 5999]);
    [
        quiet(CYCLE_LEAST),
        no_exit,
        exit_unserved,
        entry_unserved,
        unsettled,
        stopped,
    ]
}

/// Refusals 7 to 12 alone, with the profile long enough and not, and two at once.
fn add_faults(file: &mut File) {
    let faults = faults(CYCLE_LEAST);
    add_single_faults(file, &faults);
    add_green_faults(file, &faults);
    add_fault_pairs(file);
}

/// Each fault; one in three also before 16 and after 6.
fn add_single_faults(file: &mut File, faults: &[Fault]) {
    for (n, fault) in faults.iter().enumerate() {
        let record = fault.applied(busy(CYCLE_LEAST));
        add(file, &record, 90);
        if n % 3 == 0 {
            add(file, &record, 89);
            add(file, &record[..67], 90);
        }
    }
}

/// A fault of a green before 16.
fn add_green_faults(file: &mut File, faults: &[Fault]) {
    for fault in faults.iter().filter(|fault| fault.number == GREEN) {
        add(file, &fault.applied(busy(CYCLE_LEAST)), 5);
    }
}

fn add_fault_pairs(file: &mut File) {
    for [low, high] in fault_pairs(CYCLE_LEAST) {
        let record = high.applied(low.applied(busy(CYCLE_LEAST)));
        add(file, &record, 90);
    }
}

fn add_random(file: &mut File) {
    let mut random = Random::new(SEED);
    for n in 0..240 {
        let cycle = match n % 12 {
            0 => CYCLE_MOST,
            1 => random.between(91, 239),
            2 => CYCLE_LEAST,
            _ => random.between(30, 90),
        };
        let record = random_of_kind(&mut random, n, cycle);
        let longer = if n % 5 == 0 {
            random.below(20) as usize
        } else {
            0
        };
        add(file, &record, 3 * cycle as usize + longer);
    }
}
