//! Vectors of the working with points.

use super::discharge::refused_by_volume;
use super::faults::{fault_pairs, faults};
use super::metered::{cut_records, little_alone, little_served, order_records, random_of_kind};
use super::rest::by_rest;
use super::working::{fullest, long_record, with_idle_entries};
use super::{product, profile_before, Body, File, ARRIVAL_TURNS, BLOCKING_EDGES};
use super::{FIRST_BEFORE, OUTPUT_BEFORE, PASSING_BEFORE, SECOND_BEFORE};
use crate::points::{work_points, Point, Points, POINTS_MOST};
use crate::random::Random;
use crate::record::{
    read_u16, read_u32, ACCESS_AT, CYCLE_AT, CYCLE_LEAST, CYCLE_MOST, RUNNING_TIME_AT,
    RUNNING_TIME_LEAST,
};
use crate::samples::{
    busy, good_points, put_entry, put_exits, put_u16, put_u32, quiet, random_points, random_record,
    RecordBytes,
};

const SEED: u64 = 0x0101_d21e;

/// Lengths of output, point profiles, first and second work profile.
type Lengths = [usize; 4];

/// A test program need not lend more.
const LENGTHS_MOST: Lengths = [1000, 2000, 300, 300];

/// Eight points of a record with 40 s, in no order of running time.
const EIGHT: [Point; POINTS_MOST] = [
    point(40000, 4100),
    point(1000, 1000),
    point(25000, 10000),
    point(12345, 6000),
    point(39999, 5000),
    point(8000, 2500),
    point(20000, 8000),
    point(3000, 3000),
];

const fn point(running: u32, headway: u32) -> Point {
    Point { running, headway }
}

pub fn file() -> File {
    let mut file = File::default();
    add_counts(&mut file);
    add_point_ends(&mut file);
    add_ends_of_long_and_short(&mut file);
    add_equal_running_times(&mut file);
    add_places(&mut file);
    add_profile_lengths(&mut file, CYCLE_LEAST);
    add_profile_lengths(&mut file, 61);
    add_orders(&mut file);
    add_refused_records(&mut file);
    add_near_blocking(&mut file);
    add_running_times(&mut file);
    add_idle_entries(&mut file);
    add_metered(&mut file);
    add_by_rest(&mut file);
    add_extremes(&mut file);
    add_random(&mut file);
    add_short_cycles(&mut file);
    add_long(&mut file);
    let body = case(
        &busy(CYCLE_LEAST),
        &first_points(2),
        exact(CYCLE_LEAST, 2),
        1,
    )
    .1;
    file.push("wrong".into(), body);
    file
}

fn first_points(count: u32) -> Points {
    Points { count, at: EIGHT }
}

/// Lengths that are just enough for so many points, or for eight.
fn exact(cycle: u32, count: u32) -> Lengths {
    let cycle = cycle as usize;
    let runs = POINTS_MOST.min(count as usize);
    [4 * cycle, runs * cycle, cycle, cycle]
}

/// A case; `off` is added to the last number of the point profiles.
fn case(record: &[u8], points: &Points, lengths: Lengths, off: u32) -> (u32, Body) {
    assert!(lengths.iter().zip(&LENGTHS_MOST).all(|(a, b)| a <= b));
    let mut output = profile_before(OUTPUT_BEFORE, lengths[0]);
    let mut passing = profile_before(PASSING_BEFORE, lengths[1]);
    let mut first = profile_before(FIRST_BEFORE, lengths[2]);
    let mut second = profile_before(SECOND_BEFORE, lengths[3]);
    let result = work_points(
        record,
        points,
        &mut output,
        &mut passing,
        &mut first,
        &mut second,
    );
    if let Some(last) = passing.last_mut() {
        *last += off;
    }
    let number = result.err().map_or(0, |refused| refused.number);
    let mut body = Body::default();
    body.short(record.len());
    body.bytes(record);
    put_points(&mut body, points);
    body.counts(&lengths);
    body.word(number);
    body.words(&result.map_or([0; POINTS_MOST], |worked| worked.blocked));
    body.words(&[output, passing, first, second].concat());
    (number, body)
}

fn put_points(body: &mut Body, points: &Points) {
    body.word(points.count);
    for point in &points.at {
        body.words(&[point.running, point.headway]);
    }
}

fn add(file: &mut File, record: &[u8], points: &Points, lengths: Lengths) {
    let (number, body) = case(record, points, lengths, 0);
    file.push(format!("{number}"), body);
}

/// A case with profiles that are just long enough.
fn add_exact(file: &mut File, cycle: u32, record: &RecordBytes, points: &Points) {
    add(file, record, points, exact(cycle, points.count));
}

/// From none to eight, and more; some would do if their high bits were lost.
fn add_counts(file: &mut File) {
    let more = [9, 10, 255, 256, 259, 65536 + 8, 0x8000_0001, u32::MAX];
    for count in (0..=8).chain(more) {
        add_exact(file, CYCLE_LEAST, &busy(CYCLE_LEAST), &first_points(count));
    }
    add_exact(file, 60, &busy(60), &first_points(8));
}

/// One point with both fields at the ends of their ranges and past them.
fn add_point_ends(file: &mut File) {
    let running_times = [0, 999, 1000, 1001, 39999, 40000, 40001, 300_000, u32::MAX];
    let headways = [
        0,
        999,
        1000,
        1001,
        9999,
        10000,
        10001,
        65536 + 4100,
        u32::MAX,
    ];
    let record = busy(CYCLE_LEAST);
    let around = product(&running_times, &[1000, 4100, 10000]);
    for (running, headway) in around.into_iter().chain(product(&[1000, 40000], &headways)) {
        add_exact(file, CYCLE_LEAST, &record, &one(running, headway));
    }
    add_exact(file, CYCLE_LEAST, &record, &one(999, 10001));
}

/// One point given; the places beyond hold zeros, which are out of range.
fn one(running: u32, headway: u32) -> Points {
    let mut points = Points {
        count: 1,
        ..Points::default()
    };
    points.at[0] = point(running, headway);
    points
}

/// The record's own running time and one over it, where that is the least and the most.
fn add_ends_of_long_and_short(file: &mut File) {
    for own in [1000, 1001, 299_999, 300_000] {
        let mut record = busy(CYCLE_LEAST);
        put_u32(&mut record, RUNNING_TIME_AT, own);
        for running in [999, 1000, own - 1, own, own + 1] {
            add_exact(file, CYCLE_LEAST, &record, &one(running, 2000));
        }
    }
}

/// Points at one place: the same run for each, counted by each one's headway.
fn add_equal_running_times(file: &mut File) {
    for running in [1000, 17000, 40000] {
        let at = EIGHT.map(|here| point(running, here.headway));
        for count in [2, 8] {
            let points = Points { count, at };
            add_exact(file, CYCLE_LEAST, &busy(CYCLE_LEAST), &points);
        }
    }
    let at = [EIGHT[2]; POINTS_MOST];
    let points = Points { count: 8, at };
    add_exact(file, CYCLE_LEAST, &busy(CYCLE_LEAST), &points);
}

/// A bad point at each place: the last given, the next beyond, and the first of several.
fn add_places(file: &mut File) {
    for place in 0..POINTS_MOST {
        let bad = [point(999, 4100), point(40001, 4100), point(20000, 10001)][place % 3];
        let count = place as u32;
        let mut points = first_points(count);
        points.at[place] = bad;
        for count in [count, count + 1, 8] {
            let points = Points { count, ..points };
            add_exact(file, CYCLE_LEAST, &busy(CYCLE_LEAST), &points);
        }
    }
}

/// Profiles of awkward lengths.
fn add_profile_lengths(file: &mut File, cycle: u32) {
    for count in [0, 1, 3, 8] {
        let lengths = exact(cycle, count);
        let enough = lengths[1];
        let one_less = enough.saturating_sub(1);
        let run_less = enough.saturating_sub(cycle as usize);
        for length in [enough, one_less, enough + 1, enough + 17, run_less, 0] {
            let mut lengths = lengths;
            lengths[1] = length;
            add(file, &busy(cycle), &first_points(count), lengths);
        }
    }
    for short in [0, 2, 3] {
        let mut lengths = exact(cycle, 2);
        lengths[short] -= 1;
        add(file, &busy(cycle), &first_points(2), lengths);
        lengths[short] += 4;
        add(file, &busy(cycle), &first_points(2), lengths);
    }
}

/// 19 before 20, 20 before 16, 16 before 13, 14 and 15, and these with points.
fn add_orders(file: &mut File) {
    let mut bad = first_points(2);
    bad.at[1].headway = 999;
    let nine = Points { count: 9, ..bad };
    let enough = exact(CYCLE_LEAST, 2);
    let mut short = enough;
    short[1] -= 1;
    let records = [busy(CYCLE_LEAST)].into_iter().chain(refused_by_volume());
    for record in records {
        for (points, lengths) in product(&[nine, bad, first_points(2)], &[enough, short]) {
            add(file, &record, &points, lengths);
        }
        add(file, &record, &first_points(1), exact(CYCLE_LEAST, 1));
        add(file, &record, &first_points(0), exact(CYCLE_LEAST, 0));
        add(file, &record, &nine, [0; 4]);
        add(file, &record, &bad, [0; 4]);
    }
}

/// 6 to 12 with points that are good, bad and too many.
fn add_refused_records(file: &mut File) {
    let enough = exact(CYCLE_LEAST, 2);
    let mut bad = first_points(2);
    bad.at[1].running = 0;
    let choices = [first_points(2), bad, first_points(9)];
    let long = [busy(CYCLE_LEAST), busy(CYCLE_LEAST)].concat();
    for (length, points) in product(&[0, 1, 67, 69, 136], &choices) {
        add(file, &long[..length], &points, enough);
    }
    let faults = faults(CYCLE_LEAST);
    for (n, fault) in faults.iter().step_by(3).enumerate() {
        let record = fault.applied(busy(CYCLE_LEAST));
        add(file, &record, &choices[n % 3], enough);
    }
    let pairs = fault_pairs(CYCLE_LEAST);
    for (n, [low, high]) in pairs.iter().step_by(7).enumerate() {
        let record = high.applied(low.applied(quiet(CYCLE_LEAST)));
        add(file, &record, &choices[n % 3], [119, 0, 30, 1]);
    }
}

/// Only access enters: flows at the edge of blocking, by the point's headway.
fn add_near_blocking(file: &mut File) {
    for (volume, headway) in BLOCKING_EDGES.into_iter().chain([(6000, 1000)]) {
        let mut record = quiet(CYCLE_LEAST);
        put_u16(&mut record, ACCESS_AT, volume);
        put_exits(&mut record, [0, 1, 0, 0]);
        add_exact(file, CYCLE_LEAST, &record, &one(9000, headway));
        add_exact(file, CYCLE_LEAST, &record, &first_points(3));
    }
}

/// The turns of t', each point's own.
fn add_running_times(file: &mut File) {
    let points = Points {
        count: 8,
        at: ARRIVAL_TURNS.map(|running| point(running, 3000)),
    };
    for cycle in [CYCLE_LEAST, 47, 90] {
        let mut record = busy(cycle);
        put_u32(&mut record, RUNNING_TIME_AT, 300_000);
        add_exact(file, cycle, &record, &points);
    }
}

/// Entries with no discharge beside busy ones.
fn add_idle_entries(file: &mut File) {
    for idle in 0..7 {
        add_exact(file, 47, &with_idle_entries(idle), &first_points(3));
    }
}

/// Entries of more volume than capacity: each, then all; of very little capacity; and some that tell orders and cuts apart.
fn add_metered(file: &mut File) {
    for metered in [&[0][..], &[1], &[2], &[0, 1, 2]] {
        let mut record = busy(CYCLE_LEAST);
        for &i in metered {
            put_entry(&mut record, i, [1500, 1777, 26, 9, 250]);
        }
        add_exact(file, CYCLE_LEAST, &record, &first_points(4));
    }
    let little = little_alone();
    let short = |record: &&RecordBytes| read_u16(&record[..], CYCLE_AT) == CYCLE_LEAST;
    for record in little.iter().filter(short).chain(&little_served()) {
        add_exact(file, CYCLE_LEAST, record, &first_points(2));
    }
    let (orders, cuts) = (order_records(), cut_records());
    for record in orders.iter().step_by(6).chain(cuts.iter().step_by(16)) {
        let mut points = first_points(1);
        points.at[0].running = running_time(record).min(points.at[0].running);
        add_exact(file, read_u16(record, CYCLE_AT), record, &points);
    }
}

/// Links that come to rest late and soon, with points at all and at half of the running time.
fn add_by_rest(file: &mut File) {
    for record in by_rest() {
        let own = running_time(&record);
        let mut points = first_points(2);
        points.at[0].running = own;
        points.at[1].running = RUNNING_TIME_LEAST.max(own / 2);
        add_exact(file, read_u16(&record, CYCLE_AT), &record, &points);
    }
}

/// The most of everything.
fn add_extremes(file: &mut File) {
    for (cycle, running_time) in product(&[CYCLE_LEAST, 97, CYCLE_MOST], &[1000, 300_000]) {
        let mut record = fullest(cycle, running_time);
        let ends = Points {
            count: 3,
            at: [1000, running_time, 1000 + running_time / 3, 0, 0, 0, 0, 0]
                .map(|running| point(running.min(running_time), 10000)),
        };
        add_exact(file, cycle, &record, &ends);
        for i in 0..3 {
            put_entry(&mut record, i, [6000, 12000, cycle / 2, cycle / 2, 0]);
        }
        add_exact(file, cycle, &record, &ends);
    }
}

fn running_time(record: &RecordBytes) -> u32 {
    read_u32(record, RUNNING_TIME_AT)
}

/// Random records of all cycles, some with longer profiles.
fn add_random(file: &mut File) {
    let mut random = Random::new(SEED);
    for n in 0..34 {
        let cycle = random.between(45, 200);
        let record = random_record(&mut random, cycle);
        let points = random_points(&mut random, running_time(&record));
        let mut lengths = exact(cycle, points.count);
        if n % 3 == 0 {
            lengths = lengths.map(|length| length + random.below(9) as usize);
        }
        add(file, &record, &points, lengths);
    }
}

/// Many more of short cycles, so that the file stays small; some point profiles are short by one.
fn add_short_cycles(file: &mut File) {
    let mut random = Random::new(SEED + 1);
    for n in 0..235 {
        let cycle = random.between(CYCLE_LEAST, 44);
        let record = random_of_kind(&mut random, n, cycle);
        let points = random_points(&mut random, running_time(&record));
        let mut lengths = exact(cycle, points.count);
        if n % 12 == 0 {
            lengths[1] = lengths[1].saturating_sub(1);
        }
        add(file, &record, &points, lengths);
    }
}

/// Accepted records of 240 steps and 300 s with eight points.
fn add_long(file: &mut File) {
    let mut random = Random::new(SEED + 2);
    let mut accepted = 0;
    while accepted < 6 {
        let record = long_record(&mut random);
        let points = good_points(&mut random, 8, running_time(&record));
        let (number, body) = case(&record, &points, exact(CYCLE_MOST, 8), 0);
        if number == 0 {
            file.push("0".into(), body);
            accepted += 1;
        }
    }
}
