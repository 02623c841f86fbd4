//! Vectors of the working.

use super::balance_cases::{Inputs, BY_ROUNDS, BY_STOP};
use super::discharge::refused_by_volume;
use super::faults::{fault_pairs, faults, Fault};
use super::metered::{
    at_capacity, cut_records, little_alone, little_served, order_records, random_of_kind,
};
use super::range_ends::{green_ends, headway_ends, number_ends, volume_ends};
use super::rest::by_rest;
use super::{product, profile_before, Body, File};
use super::{ARRIVAL_TURNS, BLOCKING_EDGES, FIRST_BEFORE, OUTPUT_BEFORE, SECOND_BEFORE};
use crate::arrivals::ExitFigures;
use crate::metering::{capacity, UNITS};
use crate::random::Random;
use crate::record::{
    read_u16, ACCESS, ACCESS_AT, CYCLE_AT, CYCLE_LEAST, CYCLE_MOST, HEADWAY_AT, RUNNING_TIME_AT,
};
use crate::samples::{
    busy, put_downstream, put_entry, put_exits, put_seeds, put_u16, put_u32, quiet, random_record,
    random_volume, RecordBytes,
};
use crate::working::{work, Working};
use std::iter::repeat_with;

const SEED: u64 = 0x0101_307c;

const REFUSED: Working = Working {
    shift: 0,
    rounds: 0,
    last_sum: 0.0,
    flows: [[0; 4]; 4],
    exits: [ExitFigures {
        total: 0,
        green: 0,
        permille: 0,
    }; 3],
    access_total: 0,
    blocked: 0,
};

pub fn file() -> File {
    let mut file = File::default();
    add_profile_lengths(&mut file, CYCLE_LEAST);
    add_profile_lengths(&mut file, 61);
    add_record_lengths(&mut file);
    add_refused_by_volume(&mut file);
    add_faults(&mut file);
    add_example(&mut file);
    add_running_times(&mut file);
    add_near_blocking(&mut file);
    add_range_ends(&mut file);
    add_extremes(&mut file);
    add_idle_entries(&mut file);
    add_balances(&mut file);
    add_metered(&mut file);
    add_by_rest(&mut file);
    add_random(&mut file);
    add_short_cycles(&mut file);
    add_long(&mut file);
    file.push("wrong".into(), case(&busy(CYCLE_LEAST), [120, 30, 30], 1).1);
    file
}

/// Lengths of the three profiles that are just enough.
fn exact(cycle: u32) -> [usize; 3] {
    let cycle = cycle as usize;
    [4 * cycle, cycle, cycle]
}

/// A case; `off` is added to the last number of the output.
fn case(record: &[u8], lengths: [usize; 3], off: u32) -> (u32, Body) {
    let mut output = profile_before(OUTPUT_BEFORE, lengths[0]);
    let mut first = profile_before(FIRST_BEFORE, lengths[1]);
    let mut second = profile_before(SECOND_BEFORE, lengths[2]);
    let result = work(record, &mut output, &mut first, &mut second);
    let number = result.err().map_or(0, |refused| refused.number);
    if let Some(last) = output.last_mut() {
        *last += off;
    }
    let mut body = Body::default();
    body.short(record.len());
    body.bytes(record);
    body.counts(&lengths);
    body.word(number);
    body.bits(result.map_or_else(|refused| refused.last_sum, |working| working.last_sum));
    put_working(&mut body, &result.unwrap_or(REFUSED));
    body.words(&[output, first, second].concat());
    (number, body)
}

fn put_working(body: &mut Body, working: &Working) {
    body.word(working.shift);
    body.word(working.rounds);
    body.words(&working.flows.concat());
    for exit in &working.exits {
        body.long(exit.total);
        body.long(exit.green);
        body.word(exit.permille);
    }
    body.long(working.access_total);
    body.word(working.blocked);
}

fn add(file: &mut File, record: &[u8], lengths: [usize; 3]) {
    let (number, body) = case(record, lengths, 0);
    file.push(format!("{number}"), body);
}

/// A case with profiles that are just long enough.
fn add_exact(file: &mut File, cycle: u32, record: &RecordBytes) {
    add(file, record, exact(cycle));
}

/// Profiles of awkward lengths.
fn add_profile_lengths(file: &mut File, cycle: u32) {
    let [output, first, second] = exact(cycle);
    for lengths in [
        [output, first, second],
        [output - 1, first, second],
        [output, first - 1, second],
        [output, first, second - 1],
        [0, first, second],
        [output, 0, second],
        [output, first, 1],
        [1, 1, 1],
        [0, 0, 0],
        [output + 1, first + 2, second + 3],
        [output + 50, first, second + 11],
        [output, first + output, second],
    ] {
        add(file, &busy(cycle), lengths);
    }
}

/// Records of other lengths.
fn add_record_lengths(file: &mut File) {
    let long = [busy(30), busy(30)].concat();
    for length in [0, 1, 67, 69, 136] {
        add(file, &long[..length], exact(30));
        add(file, &long[..length], [0, 0, 0]);
    }
}

/// 13, 14 and 15, and 16 before each.
fn add_refused_by_volume(file: &mut File) {
    let [output, first, second] = exact(CYCLE_LEAST);
    for record in refused_by_volume().iter().chain(&more_without_volume()) {
        add(file, record, [output, first, second]);
        add(file, record, [output - 1, first, second]);
        add(file, record, [output, first - 1, second]);
        add(file, record, [output, first, second - 1]);
    }
}

/// No discharge by no saturation and by no green, though volumes are given.
fn more_without_volume() -> [RecordBytes; 2] {
    let mut no_saturation = busy(CYCLE_LEAST);
    let mut no_green = busy(CYCLE_LEAST);
    for i in 0..3 {
        put_entry(&mut no_saturation, i, [500, 0, 3, 10, 500]);
        put_entry(&mut no_green, i, [500, 1800, 3, 0, 500]);
    }
    [no_saturation, no_green].map(|mut record| {
        put_u16(&mut record, ACCESS_AT, 0);
        record
    })
}

/// Some faults of each number 7 to 12 alone, before 13 and 16, and two at once.
fn add_faults(file: &mut File) {
    let faults = faults(CYCLE_LEAST);
    add_single_faults(file, &faults);
    add_faults_before_others(file, &faults);
    add_fault_pairs(file);
}

fn add_single_faults(file: &mut File, faults: &[Fault]) {
    for fault in faults.iter().step_by(3) {
        add_exact(file, CYCLE_LEAST, &fault.applied(busy(CYCLE_LEAST)));
    }
}

fn add_faults_before_others(file: &mut File, faults: &[Fault]) {
    for fault in faults.iter().step_by(7) {
        add(file, &fault.applied(quiet(CYCLE_LEAST)), [120, 29, 30]);
    }
}

fn add_fault_pairs(file: &mut File) {
    for [low, high] in fault_pairs(CYCLE_LEAST).iter().step_by(3) {
        let record = high.applied(low.applied(busy(CYCLE_LEAST)));
        add(file, &record, [119, 30, 31]);
    }
}

/// The printed example.
fn add_example(file: &mut File) {
    add_exact(file, 60, &example());
}

pub(super) fn example() -> RecordBytes {
    let mut example = quiet(60);
    put_u16(&mut example, ACCESS_AT, 360);
    put_exits(&mut example, [0, 360, 0, 0]);
    put_downstream(&mut example, [(0, 0), (0, 30), (0, 0)]);
    example
}

/// The turns of t'.
fn add_running_times(file: &mut File) {
    for running_time in ARRIVAL_TURNS {
        let mut record = busy(CYCLE_LEAST);
        put_u32(&mut record, RUNNING_TIME_AT, running_time);
        add_exact(file, CYCLE_LEAST, &record);
    }
}

/// Flows at the edge of blocking.
fn add_near_blocking(file: &mut File) {
    for (volume, headway) in BLOCKING_EDGES {
        let mut record = quiet(CYCLE_LEAST);
        put_u16(&mut record, HEADWAY_AT, headway);
        put_u16(&mut record, ACCESS_AT, volume);
        put_exits(&mut record, [0, 1, 0, 0]);
        add_exact(file, CYCLE_LEAST, &record);
    }
}

/// Every field at both ends of its range; the running times are with the turns of t'.
fn add_range_ends(file: &mut File) {
    let volumes_and_greens = [volume_ends(CYCLE_LEAST), green_ends(CYCLE_LEAST)].concat();
    let headways_and_numbers = [headway_ends(), number_ends()].concat();
    for record in volumes_and_greens.iter().chain(&headways_and_numbers) {
        add_exact(file, CYCLE_LEAST, record);
    }
}

/// The most of everything.
fn add_extremes(file: &mut File) {
    for (cycle, running_time) in product(&[CYCLE_LEAST, 97, CYCLE_MOST], &[1000, 300_000]) {
        let mut record = fullest(cycle, running_time);
        add_exact(file, cycle, &record);
        put_exits(&mut record, [0, 12000, 0, 0]);
        add_exact(file, cycle, &record);
        put_entry(&mut record, 2, [6000, 12000, cycle / 2, cycle / 2, 0]);
        add_exact(file, cycle, &record);
    }
}

/// A record with the most volume and green, and the same seeds for all pairs.
pub(super) fn fullest(cycle: u32, running_time: u32) -> RecordBytes {
    let mut record = quiet(cycle);
    put_u32(&mut record, RUNNING_TIME_AT, running_time);
    put_u16(&mut record, HEADWAY_AT, 10000);
    for (i, on_green) in [0, 500, 1000].into_iter().enumerate() {
        put_entry(&mut record, i, [6000, 12000, cycle - 1, cycle, on_green]);
    }
    put_u16(&mut record, ACCESS_AT, 6000);
    put_exits(&mut record, [12000; 4]);
    put_downstream(
        &mut record,
        [(cycle - 1, cycle), (cycle - 1, 1), (cycle / 2, cycle)],
    );
    put_seeds(&mut record, &[[25; 4]; 4]);
    record
}

/// Entries with no discharge beside busy ones.
fn add_idle_entries(file: &mut File) {
    for idle in 0..7 {
        add_exact(file, 47, &with_idle_entries(idle));
    }
}

/// A busy record where entry `i` is idle if bit `i` of `idle` is set.
pub(super) fn with_idle_entries(idle: u32) -> RecordBytes {
    let mut record = busy(47);
    for i in (0..3).filter(|i| idle >> i & 1 == 1) {
        put_entry(&mut record, i, [0, 1800, 40, 20, 700]);
    }
    record
}

/// The rare balances, as the discharge volumes of records.
fn add_balances(file: &mut File) {
    let by_rounds = BY_ROUNDS.iter().map(|(_, inputs)| inputs);
    for inputs in by_rounds.chain(BY_STOP.iter().step_by(3).map(|(_, _, inputs)| inputs)) {
        add_exact(file, CYCLE_LEAST, &balance_record(CYCLE_LEAST, inputs));
    }
}

/// A record that discharges as the balance says, in whole vehicles an hour, where its greens have the capacity.
pub(super) fn balance_record(cycle: u32, (discharge, exits, seeds): &Inputs) -> RecordBytes {
    let mut record = quiet(cycle);
    for i in 0..3u32 {
        put_entry(
            &mut record,
            i as usize,
            [discharge[i as usize] / UNITS, 12000, 7 * i, 15 + i, 300 * i],
        );
    }
    put_u16(&mut record, ACCESS_AT, discharge[ACCESS] / UNITS);
    put_exits(&mut record, *exits);
    put_seeds(&mut record, seeds);
    record
}

/// Volumes about the capacity, discharges under one vehicle an hour, those that show how G is cut, and those that tell
/// the orders of the operations on their thousandths apart.
fn add_metered(file: &mut File) {
    let little = [little_alone(), little_served().to_vec()].concat();
    let records = [at_capacity(), little, cut_records(), order_records()];
    for record in records.concat() {
        add_exact(file, read_u16(&record, CYCLE_AT), &record);
    }
}

/// Links that come to rest late and soon.
fn add_by_rest(file: &mut File) {
    for record in by_rest() {
        add_exact(file, read_u16(&record, CYCLE_AT), &record);
    }
}

/// Random records, one in four at 240 steps and 300 s, some with longer profiles.
fn add_random(file: &mut File) {
    let mut random = Random::new(SEED);
    for n in 0..260 {
        let cycle = match n % 8 {
            0 => CYCLE_MOST,
            1 => CYCLE_LEAST,
            2 => random.between(91, 239),
            _ => random.between(30, 90),
        };
        let mut record = random_record(&mut random, cycle);
        if n % 4 == 0 {
            put_u32(&mut record, RUNNING_TIME_AT, 300_000);
        }
        let mut lengths = exact(cycle);
        if n % 5 == 0 {
            lengths = lengths.map(|length| length + random.below(9) as usize);
        }
        add(file, &record, lengths);
    }
}

/// Many more of short cycles, so that the file stays small.
fn add_short_cycles(file: &mut File) {
    let mut random = Random::new(SEED + 2);
    for n in 0..1460 {
        let cycle = random.between(CYCLE_LEAST, 44);
        add_exact(file, cycle, &random_of_kind(&mut random, n, cycle));
    }
}

/// Accepted records of 240 steps and 300 s, three busy entries, greens past the end.
fn add_long(file: &mut File) {
    let mut random = Random::new(SEED + 1);
    let cases = repeat_with(|| case(&long_record(&mut random), exact(CYCLE_MOST), 0));
    for (_, body) in cases.filter(|(number, _)| *number == 0).take(30) {
        file.push("0".into(), body);
    }
}

pub fn long_record(random: &mut Random) -> RecordBytes {
    let mut record = random_record(random, CYCLE_MOST);
    put_u32(&mut record, RUNNING_TIME_AT, 300_000);
    for i in 0..3 {
        let start = random.between(120, 239);
        let length = random.between(CYCLE_MOST - start + 1, CYCLE_MOST);
        let saturation = random.between(1200, 5000);
        let volume = random_volume(random, capacity(saturation, length, CYCLE_MOST));
        let on_green = random.below(1001);
        put_entry(
            &mut record,
            i,
            [volume, saturation, start, length, on_green],
        );
    }
    record
}
