//! Refusals 6 to 12 of a record.

use reference::record::{decode, DEFAULT_SEEDS};
use reference::samples::{busy, put_seeds, quiet};
use reference::vectors::faults::{fault_pairs, faults};

#[test]
fn good_records() {
    for cycle in 30..=240 {
        assert_eq!(decode(&busy(cycle)).map(|record| record.cycle), Ok(cycle));
        assert_eq!(
            decode(&quiet(cycle)).map(|record| record.seeds),
            Ok(DEFAULT_SEEDS)
        );
    }
}

#[test]
fn lengths() {
    let long = [busy(30), busy(30)].concat();
    for length in (0..136).filter(|&length| length != 68) {
        assert_eq!(decode(&long[..length]), Err(6));
    }
}

fn check_faults(cycle: u32) {
    for fault in faults(cycle) {
        let record = fault.applied(busy(cycle));
        assert_eq!(decode(&record), Err(fault.number), "{fault:?}");
    }
}

#[test]
fn each_fault_alone() {
    [30, 77, 240].into_iter().for_each(check_faults);
}

#[test]
fn the_lower_of_two() {
    for pair in fault_pairs(30) {
        let record = pair[1].applied(pair[0].applied(busy(30)));
        assert_eq!(
            decode(&record),
            Err(pair[0].number.min(pair[1].number)),
            "{pair:?}"
        );
    }
}

/// A record of other seeds keeps them.
#[test]
fn own_seeds() {
    let seeds = [[100, 0, 0, 0], [0, 0, 0, 100], [1, 1, 1, 97], [25; 4]];
    let mut record = busy(30);
    put_seeds(&mut record, &seeds);
    assert_eq!(decode(&record).map(|record| record.seeds), Ok(seeds));
}
