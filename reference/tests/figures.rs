//! Every figure of the paper, starred or not, from bytes written out here.

use reference::archive::{add, EMPTY};
use reference::arrivals::{blocked, PairShare};
use reference::balance::{balance, check_volumes, Outcome, ROUND_LIMIT};
use reference::discharge::{discharge, received_by};
use reference::dispersion::{arrival_time, disperse_cycles, Ending, Link};
use reference::greens::{Green, Post, Step};
use reference::metering::capacity;
use reference::record::{Seeds, DEFAULT_SEEDS};
use reference::report::report;
use reference::working::work;

/// A record at the paper's offsets: number 1, C 60, r 40000, h 4100, all else 0.
fn plain_record() -> [u8; 68] {
    let mut record = [0; 68];
    record[0] = 1;
    record[4] = 60;
    record[6..10].copy_from_slice(&[0x40, 0x9c, 0, 0]);
    record[10..12].copy_from_slice(&[0x04, 0x10]);
    record
}

fn put(record: &mut [u8; 68], at: usize, value: u16) {
    record[at..at + 2].copy_from_slice(&value.to_le_bytes());
}

/// Volume 600, saturation 1800, green 0 and 30, P 500 at entry `i`.
fn with_entry(i: usize) -> [u8; 68] {
    let mut record = plain_record();
    let at = 12 + 8 * i;
    put(&mut record, at, 600);
    put(&mut record, at + 2, 1800);
    record[at + 5] = 30;
    put(&mut record, at + 6, 500);
    record
}

fn worked_number(record: &[u8]) -> u32 {
    let (mut output, mut first, mut second) = ([0; 240], [0; 60], [0; 60]);
    work(record, &mut output, &mut first, &mut second).map_or_else(|refused| refused.number, |_| 0)
}

#[test]
fn greens() {
    let steps = |start, length| -> Vec<Step> {
        Green {
            start: Post(start),
            length,
        }
        .steps(60)
        .collect()
    };
    assert_eq!(steps(0, 1), [Step(1)]);
    let wrapped: Vec<Step> = (56..=60).chain(1..=5).map(Step).collect();
    assert_eq!(steps(55, 10), wrapped);
    assert_eq!(steps(59, 0), []);
}

#[test]
fn platoon_arrival_time() {
    let times = [1000, 40098, 40099, 57499, 57500, 300_000].map(arrival_time);
    assert_eq!(times, [1, 34, 35, 49, 50, 259]);
}

#[test]
fn capacity_and_green_arrivals() {
    assert_eq!(capacity(1800, 31, 70), 797_142);
    let by = |k| received_by(10, k, 4);
    assert_eq!([1, 2, 3, 4].map(|k| by(k) - by(k - 1)), [2, 3, 2, 3]);
}

#[test]
fn discharge_of_the_example() {
    for i in 0..3 {
        let mut profile = [7; 181];
        let volumes = discharge(&with_entry(i), &mut profile).unwrap();
        let mut expected = [0; 181];
        expected[60 * i..60 * i + 15].fill(1_800_000);
        expected[60 * i + 15..60 * i + 30].fill(600_000);
        expected[180] = 7;
        assert_eq!(profile, expected);
        let of_three = volumes.iter().sum::<u32>();
        assert_eq!((volumes[i], of_three), (600_000, 600_000));
    }
}

/// A figure from empty: by the link itself, and by the first of the cycles worked from the record's discharge.
#[test]
fn first_two_arrivals() {
    let mut link = Link::empty(40000);
    assert_eq!((link.step(1_800_000), link.carry), (263_350, 1_375_000));
    assert_eq!((link.step(1_800_000), link.carry), (488_171, 607_500));
    let mut leaving = [0; 180];
    discharge(&with_entry(0), &mut leaving).unwrap();
    let (mut first, mut second) = ([0; 60], [0; 60]);
    let all = Ending::AllCycles;
    disperse_cycles(&leaving[..60], 40000, 1, all, &mut first, &mut second);
    assert_eq!(first[..2], [263_350, 488_171]);
}

#[test]
fn a_third_of_one_one_one() {
    let mut share = PairShare::new(1, 3);
    assert_eq!([1, 1, 1].map(|arrival| share.take(arrival)), [0, 0, 1]);
}

#[test]
fn blocked_above_the_edge() {
    assert!(!blocked(878_048, 4100));
    assert!(blocked(878_049, 4100));
    assert!(!blocked(360_000, 10000));
    assert!(blocked(360_001, 10000));
}

#[test]
fn archives() {
    assert_eq!(EMPTY, [0, 0, 0, 0, 68, 82]);
    let record = plain_record();
    let mut buffer = [9; 80];
    assert_eq!(add(&EMPTY, &record, b"", &mut buffer), Ok(77));
    assert_eq!(buffer[..68], record);
    assert_eq!(buffer[68..], [0, 0, 0, 1, 0, 69, 0, 68, 82, 9, 9, 9]);
}

#[test]
fn default_rows_add_to_100() {
    let expected: Seeds = [[2, 91, 5, 2], [10, 78, 10, 2], [5, 92, 2, 1], [2, 97, 1, 0]];
    assert_eq!(DEFAULT_SEEDS, expected);
    assert!(DEFAULT_SEEDS
        .iter()
        .all(|row| row.iter().sum::<u8>() == 100));
}

#[test]
fn unsettled_and_unserved() {
    let (discharge, exits) = ([0, 10_000, 0, 90_000], [0, 10, 0, 90]);
    let result = balance(&discharge, &exits, &DEFAULT_SEEDS, ROUND_LIMIT);
    assert!(matches!(result.outcome, Outcome::Unsettled(_)));
    let (discharge, exits) = ([0, 0, 0, 90_000], [0, 0, 0, 90]);
    assert_eq!(check_volumes(&discharge, &exits, &DEFAULT_SEEDS), Err(14));

    let mut record = plain_record();
    put(&mut record, 20, 10);
    put(&mut record, 22, 1800);
    record[25] = 60;
    put(&mut record, 36, 90);
    put(&mut record, 40, 10);
    put(&mut record, 44, 90);
    assert_eq!(worked_number(&record), 15);
    put(&mut record, 20, 0);
    put(&mut record, 40, 0);
    assert_eq!(worked_number(&record), 14);
}

#[test]
fn printed_example() {
    let mut record = plain_record();
    put(&mut record, 36, 360);
    put(&mut record, 40, 360);
    record[49] = 30;
    let mut archive = [0; 77];
    add(&EMPTY, &record, b"", &mut archive).unwrap();
    let mut text = Vec::new();
    report(&archive, &mut text);
    let expected = "card 1 cycle 60 shift 34 rounds 1
exit l total 0 green 0 permille 0
exit t total 21600000 green 10800000 permille 500
exit r total 0 green 0 permille 0
exit a total 0
blocked 0 of 60
";
    assert_eq!(String::from_utf8(text).unwrap(), expected);
}
