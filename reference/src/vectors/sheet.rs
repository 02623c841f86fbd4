//! Vectors of the exam sheet.

use super::balance_cases::BY_ROUNDS;
use super::discharge::refused_by_volume;
use super::faults::faults;
use super::metered::{cut_records, little_alone, order_records};
use super::rest::late_to_rest;
use super::working::{balance_record, example, fullest, long_record, with_idle_entries};
use super::{buffer_before, product, profile_before, Body, File};
use super::{FIRST_BEFORE, OUTPUT_BEFORE, SECOND_BEFORE};
use crate::balance::ROUND_LIMIT;
use crate::random::Random;
use crate::record::{
    read_u16, ACCESS_AT, CYCLE_AT, CYCLE_LEAST, CYCLE_MOST, LEFT, NUMBER_AT, RIGHT,
    RUNNING_TIME_AT, RUNNING_TIME_LEAST, RUNNING_TIME_MOST, THROUGH,
};
use crate::refusal;
use crate::samples::{
    busy, put_downstream, put_entry, put_exits, put_u16, put_u32, quiet, random_record, RecordBytes,
};
use crate::sheet::{sheet, COLUMNS, PAGE_BYTES};
use std::iter::repeat_with;

const SEED: u64 = 0x0101_5ee7;

/// Lengths of page, output, first and second work profile.
type Lengths = [usize; 4];

/// A test program need not lend more.
const LENGTHS_MOST: Lengths = [4500, 1000, 300, 300];

/// Page buffers that are too short.
const SHORT_PAGES: [usize; 3] = [0, 1, PAGE_BYTES - 1];
/// With nothing beyond the page, one byte, a line's bytes, the most.
const LONG_PAGES: [usize; 4] = [
    PAGE_BYTES,
    PAGE_BYTES + 1,
    PAGE_BYTES + COLUMNS,
    LENGTHS_MOST[0],
];

/// Where a row of the through run ends or begins, and the ends of the range.
const ROW_EDGES: [u32; 9] = [30, 31, 39, 40, 41, 49, 50, 239, 240];

/// Volumes of the through entry and of access, exit volumes left and through, and the through flow of every step: at and
/// just under a turn of its thousands, where they gain a digit, and about a half.
pub const STEADY: [([u32; 2], [u32; 2], u32); 18] = [
    ([0, 1], [11994, 6], 1),
    ([0, 1], [6018, 5982], 499),
    ([0, 1], [6006, 5994], 500),
    ([0, 1], [18, 11982], 999),
    ([0, 1], [6, 11994], 1000),
    ([0, 2], [3009, 8991], 1499),
    ([0, 2], [3003, 8997], 1500),
    ([0, 2], [9, 11991], 1999),
    ([0, 2], [3, 11997], 2000),
    ([0, 10], [1, 6667], 9999),
    ([0, 10], [0, 1], 10_000),
    ([0, 100], [1, 12000], 99_992),
    ([0, 100], [0, 1], 100_000),
    ([0, 1000], [1, 12000], 999_917),
    ([0, 1000], [0, 1], 1_000_000),
    ([0, 6000], [1, 12000], 5_999_501),
    ([6000, 3999], [0, 1], 9_999_000),
    ([6000, 4000], [0, 1], 10_000_000),
];

pub fn file() -> File {
    let mut file = File::default();
    add_page_lengths(&mut file);
    add_short_pages(&mut file);
    add_refused(&mut file);
    add_refused_twice(&mut file);
    add_all_exact(&mut file, &[example()]);
    add_all_exact(&mut file, &steady());
    add_all_exact(&mut file, &smallest());
    add_all_exact(&mut file, &longest());
    add_all_exact(&mut file, &by_digits());
    add_all_exact(&mut file, &[0, 1, 2, 6].map(with_idle_entries));
    add_all_exact(&mut file, &metered());
    let late: Vec<RecordBytes> = late_to_rest().into_iter().step_by(4).collect();
    add_all_exact(&mut file, &late);
    add_cycles(&mut file);
    add_random(&mut file);
    add_long(&mut file);
    file.push(
        "wrong".into(),
        case(&busy(CYCLE_LEAST), exact(CYCLE_LEAST), 1).1,
    );
    file
}

/// Lengths that are just enough.
fn exact(cycle: u32) -> Lengths {
    let cycle = cycle as usize;
    [PAGE_BYTES, 4 * cycle, cycle, cycle]
}

/// Profiles that are just long enough, and a page of this length.
fn with_page(cycle: u32, page: usize) -> Lengths {
    let [_, output, first, second] = exact(cycle);
    [page, output, first, second]
}

/// A case; `off` is added to the last byte of the page.
fn case(record: &[u8], lengths: Lengths, off: u8) -> (u32, Body) {
    assert!(lengths.iter().zip(&LENGTHS_MOST).all(|(a, b)| a <= b));
    let mut page = buffer_before(lengths[0]);
    let mut output = profile_before(OUTPUT_BEFORE, lengths[1]);
    let mut first = profile_before(FIRST_BEFORE, lengths[2]);
    let mut second = profile_before(SECOND_BEFORE, lengths[3]);
    let result = sheet(record, &mut page, &mut output, &mut first, &mut second);
    if let Some(last) = page.last_mut() {
        *last += off;
    }
    let number = result.err().map_or(0, |refused| refused.number);
    let mut body = Body::default();
    body.short(record.len());
    body.bytes(record);
    body.counts(&lengths);
    body.word(number);
    body.bits(result.map_or_else(|refused| refused.last_sum, |working| working.last_sum));
    body.bytes(&page);
    body.words(&[output, first, second].concat());
    (number, body)
}

fn add(file: &mut File, record: &[u8], lengths: Lengths) {
    let (number, body) = case(record, lengths, 0);
    file.push(format!("{number}"), body);
}

/// Cases with lengths that are just enough.
fn add_all_exact(file: &mut File, records: &[RecordBytes]) {
    for record in records {
        add(file, record, exact(read_u16(record, CYCLE_AT)));
    }
}

fn add_page_lengths(file: &mut File) {
    for page in SHORT_PAGES.into_iter().chain(LONG_PAGES) {
        add(file, &busy(CYCLE_LEAST), with_page(CYCLE_LEAST, page));
    }
    add(file, &busy(CYCLE_LEAST), LENGTHS_MOST);
}

/// Short pages with profiles that are longer than need be, and with many steps.
fn add_short_pages(file: &mut File) {
    let [_, output, first, second] = LENGTHS_MOST;
    for (page, profiles) in product(&SHORT_PAGES, &[[121, 33, 37], [output, first, second]]) {
        let [output, first, second] = profiles;
        add(file, &busy(CYCLE_LEAST), [page, output, first, second]);
    }
    for page in [0, PAGE_BYTES - 1] {
        add(file, &busy(CYCLE_MOST), with_page(CYCLE_MOST, page));
    }
}

/// Every refusal of the working with a page that is short and with one that is not.
fn add_refused(file: &mut File) {
    for (n, (record, lengths)) in refused().iter().enumerate() {
        let mut short = *lengths;
        short[0] = SHORT_PAGES[n % 2 * 2];
        add(file, record, short);
        add(file, record, *lengths);
    }
}

/// Two records for each number 6 to 15, three lengths of profiles for 16.
fn refused() -> Vec<(Vec<u8>, Lengths)> {
    let enough = exact(CYCLE_LEAST);
    let two = [busy(CYCLE_LEAST), busy(CYCLE_LEAST)].concat();
    let other_lengths = [67, 69].map(|length| two[..length].to_vec());
    let faulty = first_and_last_faults().into_iter().map(Vec::from);
    let by_volume = refused_by_volume().map(Vec::from);
    let records = other_lengths.into_iter().chain(faulty).chain(by_volume);
    let mut refused: Vec<_> = records.map(|record| (record, enough)).collect();
    for short in 1..4 {
        let mut lengths = enough;
        lengths[short] -= 1;
        refused.push((busy(CYCLE_LEAST).to_vec(), lengths));
    }
    refused
}

/// The first and the last fault of each number 7 to 12.
fn first_and_last_faults() -> Vec<RecordBytes> {
    let faults = faults(CYCLE_LEAST);
    let of = |number| {
        let mut faults = faults.iter().filter(move |fault| fault.number == number);
        [faults.next(), faults.next_back()]
    };
    let both = (refusal::CYCLE..=refusal::SEEDS).flat_map(of).flatten();
    both.map(|fault| fault.applied(busy(CYCLE_LEAST))).collect()
}

/// 7 to 12 before 16, and 16 before 13 to 15, all with short pages.
fn add_refused_twice(file: &mut File) {
    for record in first_and_last_faults().iter().step_by(2) {
        add(file, record, [1, 119, 30, 30]);
    }
    for record in refused_by_volume().iter().step_by(2) {
        add(file, record, [0, 120, 30, 29]);
    }
}

/// Steady flows, with the record numbers at which another digit begins and those just under.
pub fn steady() -> [RecordBytes; STEADY.len()] {
    let mut number = 1;
    STEADY.map(|([entry, access], [left, through], _)| {
        let turn = number % 10 == 9;
        number = if turn { number + 1 } else { 10 * number - 1 };
        let mut record = quiet(CYCLE_LEAST);
        put_u32(&mut record, NUMBER_AT, number);
        put_u32(&mut record, RUNNING_TIME_AT, RUNNING_TIME_LEAST);
        put_entry(&mut record, THROUGH, [entry, 12000, 0, CYCLE_LEAST, 1000]);
        put_u16(&mut record, ACCESS_AT, access);
        put_exits(&mut record, [left, through, 0, 0]);
        record
    })
}

/// One vehicle an hour; no flow to the through exit; none to any signalised one. Numbers 1 and 0.
fn smallest() -> [RecordBytes; 3] {
    let mut one = quiet(CYCLE_LEAST);
    put_u16(&mut one, ACCESS_AT, 1);
    put_exits(&mut one, [0, 1, 0, 0]);
    let mut no_through = quiet(CYCLE_LEAST);
    put_u16(&mut no_through, ACCESS_AT, 360);
    put_exits(&mut no_through, [360, 0, 0, 0]);
    let mut to_access = quiet(CYCLE_LEAST);
    put_entry(&mut to_access, THROUGH, [500, 1800, 0, CYCLE_LEAST, 500]);
    put_exits(&mut to_access, [0, 0, 0, 500]);
    for record in [&mut no_through, &mut to_access] {
        put_u32(record, NUMBER_AT, 0);
    }
    [one, no_through, to_access]
}

/// The most of everything through each signalised exit in turn, all of it on green; the most in a step; the longest first
/// line.
pub fn longest() -> Vec<RecordBytes> {
    let mut records = [LEFT, THROUGH, RIGHT].map(all_through).to_vec();
    for start in [0, CYCLE_MOST / 2] {
        let mut peak = all_through(THROUGH);
        for i in [LEFT, THROUGH, RIGHT] {
            put_entry(&mut peak, i, [6000, 12000, start, CYCLE_MOST / 2, 0]);
        }
        records.push(peak);
    }
    records.push(many_rounds());
    records
}

/// The longest running time and the most rounds.
fn many_rounds() -> RecordBytes {
    let most = BY_ROUNDS.iter().find(|(rounds, _)| *rounds == ROUND_LIMIT);
    let (_, inputs) = most.expect("a balance that settles at the limit");
    let mut record = balance_record(CYCLE_MOST, inputs);
    put_u32(&mut record, NUMBER_AT, u32::MAX);
    put_u32(&mut record, RUNNING_TIME_AT, RUNNING_TIME_MOST);
    record
}

/// The most of everything to one exit, whose greens are whole cycles, on the shortest street.
fn all_through(exit: usize) -> RecordBytes {
    let mut record = fullest(CYCLE_MOST, RUNNING_TIME_LEAST);
    put_u32(&mut record, NUMBER_AT, u32::MAX);
    let mut exits = [0; 4];
    exits[exit] = 12000;
    put_exits(&mut record, exits);
    put_downstream(&mut record, [(0, CYCLE_MOST); 3]);
    record
}

/// Platoon arrival times and rounds of one, two and three digits.
fn by_digits() -> Vec<RecordBytes> {
    let mut records = [1000, 11_096, 11_097, 115_504, 115_505]
        .map(|running_time| {
            let mut record = busy(CYCLE_LEAST);
            put_u32(&mut record, RUNNING_TIME_AT, running_time);
            record
        })
        .to_vec();
    let few = BY_ROUNDS.iter().step_by(4);
    records.extend(few.map(|(_, inputs)| balance_record(CYCLE_LEAST, inputs)));
    records
}

/// Discharges that are not whole vehicles an hour, or under one, and some that show how G is cut.
fn metered() -> Vec<RecordBytes> {
    let by_order = order_records().into_iter().step_by(3);
    let little = little_alone().into_iter().step_by(7);
    let by_cut = cut_records().into_iter().step_by(8);
    by_order.chain(little).chain(by_cut).collect()
}

/// Rows of every length, by a busy record and by a random one.
fn add_cycles(file: &mut File) {
    let mut random = Random::new(SEED);
    let between: Vec<u32> = (42..=48).collect();
    for cycle in ROW_EDGES.into_iter().chain(between) {
        add(file, &busy(cycle), exact(cycle));
    }
    for cycle in ROW_EDGES {
        add_accepted(file, || random_record(&mut random, cycle), exact(cycle));
    }
}

/// The next record that is accepted.
fn add_accepted(file: &mut File, record: impl FnMut() -> RecordBytes, lengths: Lengths) {
    let cases = repeat_with(record).map(|record| case(&record, lengths, 0));
    let mut accepted = cases.filter(|(number, _)| *number == 0);
    let (_, body) = accepted.next().expect("records without end");
    file.push("0".into(), body);
}

/// Accepted records of any running time, most of few steps so that the file stays small; some with more lent than need be.
fn add_random(file: &mut File) {
    let mut random = Random::new(SEED + 1);
    for n in 0..56 {
        let cycle = match n % 8 {
            0 => random.between(121, 200),
            1 | 2 => random.between(61, 120),
            _ => random.between(CYCLE_LEAST, 60),
        };
        let mut lengths = exact(cycle);
        if n % 4 == 0 {
            lengths = lengths.map(|length| length + random.below(60) as usize);
        }
        add_accepted(file, || random_record(&mut random, cycle), lengths);
    }
}

/// Accepted records of 240 steps and 300 s.
fn add_long(file: &mut File) {
    let mut random = Random::new(SEED + 2);
    for _ in 0..4 {
        add_accepted(file, || long_record(&mut random), exact(CYCLE_MOST));
    }
}
