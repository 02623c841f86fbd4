//! Busy records with one field at an end of its range.

use super::faults::{green_fields, volume_fields};
use super::product;
use crate::record::{CYCLE_LEAST, HEADWAY_AT, NUMBER_AT, RUNNING_TIME_AT};
use crate::samples::{busy, put_green, put_seeds, put_u16, put_u32, RecordBytes};

fn with_u16(cycle: u32, at: usize, value: u32) -> RecordBytes {
    let mut record = busy(cycle);
    put_u16(&mut record, at, value);
    record
}

fn with_u32(cycle: u32, at: usize, value: u32) -> RecordBytes {
    let mut record = busy(cycle);
    put_u32(&mut record, at, value);
    record
}

/// Every volume, saturation and share arriving on green.
pub fn volume_ends(cycle: u32) -> Vec<RecordBytes> {
    let ends = |(at, most)| [0, u32::from(most)].map(|value| with_u16(cycle, at, value));
    volume_fields().into_iter().flat_map(ends).collect()
}

/// Every green, at both ends of its start and of its length.
pub fn green_ends(cycle: u32) -> Vec<RecordBytes> {
    let ends = [(0, 0), (cycle - 1, 0), (0, cycle), (cycle - 1, cycle)];
    let with_green = |(at, (start, length))| {
        let mut record = busy(cycle);
        put_green(&mut record, at, start, length);
        record
    };
    let greens = product(&green_fields(), &ends).into_iter();
    greens.map(with_green).collect()
}

pub fn running_time_ends() -> [RecordBytes; 2] {
    [1000, 300_000].map(|value| with_u32(CYCLE_LEAST, RUNNING_TIME_AT, value))
}

pub fn headway_ends() -> [RecordBytes; 2] {
    [1000, 10000].map(|value| with_u16(CYCLE_LEAST, HEADWAY_AT, value))
}

pub fn number_ends() -> [RecordBytes; 2] {
    [0, u32::MAX].map(|value| with_u32(CYCLE_LEAST, NUMBER_AT, value))
}

pub fn seed_ends() -> [RecordBytes; 3] {
    [[100, 0, 0, 0], [0, 0, 0, 100], [25; 4]].map(|row| {
        let mut record = busy(CYCLE_LEAST);
        put_seeds(&mut record, &[row; 4]);
        record
    })
}
