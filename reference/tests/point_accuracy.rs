//! The flow past random points beside the exact flows in whole numbers.

use std::ops::RangeInclusive;

use reference::accuracy::check_points;
use reference::arrivals::landed;
use reference::discharge::discharge;
use reference::dispersion::{arrival_time, disperse_cycles, Ending, CYCLES};
use reference::exact::Exact;
use reference::points::{work_points, Point, Points};
use reference::random::Random;
use reference::record::{decode, Record, RUNNING_TIME_AT};
use reference::samples::{busy, good_points, put_u32, random_record, RecordBytes};
use reference::vectors::rest::late_to_rest;

const REPEATING: &[Exact] = &[Exact::Repeating];
const BOTH: &[Exact] = &[Exact::FromEmpty, Exact::Repeating];

/// The runs of the points, if the record is accepted.
fn passing(record: &RecordBytes, points: &Points, cycle: usize) -> Option<Vec<u32>> {
    let runs = points.count as usize;
    let lengths = [4 * cycle, runs * cycle, cycle, cycle];
    let mut profiles = lengths.map(|length| vec![0; length]);
    let [output, passing, first, second] = &mut profiles;
    work_points(record, points, output, passing, first, second).ok()?;
    let [_, passing, ..] = profiles;
    Some(passing)
}

/// Checks accepted records of these cycles, with 1 to `given` points in turn; all steps of all points.
fn check_random(
    seed: u64,
    records: u32,
    cycles: RangeInclusive<u32>,
    given: u32,
    exacts: &[Exact],
) {
    let mut random = Random::new(seed);
    let mut checked = 0;
    while checked < records {
        let cycle = random.between(*cycles.start(), *cycles.end());
        let bytes = random_record(&mut random, cycle);
        let record = decode(&bytes).unwrap();
        let points = good_points(&mut random, checked % given + 1, record.running_time);
        if let Some(passing) = passing(&bytes, &points, cycle as usize) {
            let at = &points.at[..points.count as usize];
            let checks = check_points(&record, at, &passing, exacts);
            assert_eq!(checks, Ok(()), "{bytes:?}");
            checked += 1;
        }
    }
}

#[test]
fn short_cycles() {
    check_random(73, 1000, 30..=60, 8, REPEATING);
}

#[test]
fn long_cycles() {
    check_random(74, 60, 61..=239, 4, REPEATING);
    check_random(75, 16, 240..=240, 8, REPEATING);
}

/// The numbers of 65 cycles from empty are long, so the records are fewer.
#[test]
fn from_empty() {
    check_random(76, 100, 30..=45, 4, BOTH);
    check_random(77, 8, 46..=120, 2, BOTH);
    check_random(78, 2, 240..=240, 1, BOTH);
}

/// A record of 30 steps and two points of it, at half of its running time and at all of it.
struct Sample {
    bytes: RecordBytes,
    record: Record,
    at: [Point; 2],
    good: Vec<u32>,
}

impl Sample {
    fn new(bytes: RecordBytes) -> Sample {
        let record = decode(&bytes).unwrap();
        let at = [record.running_time / 2, record.running_time].map(|running| Point {
            running,
            headway: 4100,
        });
        let mut points = Points {
            count: 2,
            ..Points::default()
        };
        points.at[..2].copy_from_slice(&at);
        Sample {
            bytes,
            record,
            at,
            good: passing(&bytes, &points, 30).unwrap(),
        }
    }

    fn check(&self, passing: &[u32], exact: Exact) -> Result<(), String> {
        check_points(&self.record, &self.at, passing, &[exact])
    }

    /// What the check says with one flow moved.
    fn moved(&self, at: usize, by: i32, exact: Exact) -> Result<(), String> {
        let mut passing = self.good.clone();
        passing[at] = passing[at].checked_add_signed(by).unwrap();
        self.check(&passing, exact)
    }

    /// The runs as so many cycles from empty leave them.
    fn after_cycles(&self, cycles: usize) -> Vec<u32> {
        let mut leaving = [0; 90];
        discharge(&self.bytes, &mut leaving).unwrap();
        let (mut first, mut second) = ([0; 30], [0; 30]);
        let mut runs = vec![1000 * self.record.access_volume; 60];
        for (point, run) in self.at.iter().zip(runs.chunks_exact_mut(30)) {
            let (time, all) = (point.running, Ending::AllCycles);
            for entry in leaving.chunks_exact(30) {
                let arrivals = disperse_cycles(entry, time, cycles, all, &mut first, &mut second);
                let places = landed(run, arrival_time(time)).zip(arrivals);
                places.for_each(|(place, arrival)| *place += arrival);
            }
        }
        runs
    }
}

/// The check can fail: a flow added or taken, access left out, another point's run, a step late.
#[test]
fn the_check_can_fail() {
    let sample = Sample::new(busy(30));
    for (exact, by, off) in [
        (Exact::FromEmpty, 6, "3 or more off the flow from empty"),
        (Exact::Repeating, 12, "6 or more off the repeating flow"),
    ] {
        assert_eq!(sample.check(&sample.good, exact), Ok(()));
        for (at, by) in [(0, by), (29, -by), (30, -by), (59, by)] {
            let text = format!("point {} is {off} in step {}", at / 30, at % 30 + 1);
            assert_eq!(sample.moved(at, by, exact), Err(text));
        }
        let good = &sample.good;
        let without_access: Vec<u32> = good.iter().map(|flow| flow - 120_000).collect();
        let exchanged = [&good[30..], &good[..30]].concat();
        let late = [&good[59..], &good[..59]].concat();
        for passing in [without_access, exchanged, late] {
            assert!(sample.check(&passing, exact).is_err());
        }
    }
}

/// Four is a distance of its own: five up or down is too far at every place, and not everywhere six.
#[test]
fn four_can_fail() {
    let sample = Sample::new(busy(30));
    let mut four = 0;
    for at in 0..60 {
        let results = [5, -5].map(|by| sample.moved(at, by, Exact::Repeating));
        let texts: Vec<String> = results.into_iter().filter_map(Result::err).collect();
        assert!(!texts.is_empty(), "{at}");
        four += texts
            .iter()
            .filter(|text| text.contains("is 4 or more off"))
            .count();
    }
    assert!(four > 0);
}

/// On a long street two cycles from empty are not near to either exact flow.
#[test]
fn two_cycles_fail_on_a_long_street() {
    let mut bytes = busy(30);
    put_u32(&mut bytes, RUNNING_TIME_AT, 300_000);
    let sample = Sample::new(bytes);
    assert_eq!(sample.after_cycles(CYCLES), sample.good);
    let two = sample.after_cycles(2);
    for exact in [Exact::FromEmpty, Exact::Repeating] {
        assert!(sample
            .check(&two, exact)
            .unwrap_err()
            .contains("or more off"));
    }
}

/// The points are worked in 65 cycles and not in 64, where these differ.
#[test]
fn the_last_cycle_is_another() {
    for bytes in late_to_rest() {
        let sample = Sample::new(bytes);
        assert_eq!(sample.after_cycles(65), sample.good);
        assert_ne!(sample.after_cycles(64), sample.good);
    }
}
