//! The segment record (paper: card): 68 bytes, lowest byte first.

use crate::greens::{Green, Post};
use crate::refusal::{self, Refusal};
use std::ops::RangeInclusive;

pub const RECORD_BYTES: usize = 68;

pub const NUMBER_AT: usize = 0;
pub const CYCLE_AT: usize = 4;
pub const RUNNING_TIME_AT: usize = 6;
pub const HEADWAY_AT: usize = 10;
pub const ENTRIES_AT: usize = 12;
pub const ENTRY_BYTES: usize = 8;
pub const VOLUME_IN: usize = 0;
pub const SATURATION_IN: usize = 2;
pub const GREEN_IN: usize = 4;
pub const ON_GREEN_IN: usize = 6;
pub const ACCESS_AT: usize = 36;
pub const EXITS_AT: usize = 38;
pub const DOWNSTREAM_AT: usize = 46;
pub const SEEDS_AT: usize = 52;

pub const CYCLE_LEAST: u32 = 30;
pub const CYCLE_MOST: u32 = 240;
/// Running times and headways in milliseconds.
pub const RUNNING_TIME_LEAST: u32 = 1000;
pub const RUNNING_TIME_MOST: u32 = 300_000;
pub const HEADWAYS: RangeInclusive<u32> = 1000..=10000;

/// Movements in the paper's order, of entries and of exits.
pub const LEFT: usize = 0;
pub const THROUGH: usize = 1;
pub const RIGHT: usize = 2;
pub const ACCESS: usize = 3;

/// Seed hundredths, a row of four exits for each entry.
pub type Seeds = [[u8; 4]; 4];

/// Exhibit 30-2: what sixteen zero seeds mean.
pub const DEFAULT_SEEDS: Seeds = [[2, 91, 5, 2], [10, 78, 10, 2], [5, 92, 2, 1], [2, 97, 1, 0]];

/// A signalised entry.
#[derive(Clone, Copy, Debug, PartialEq, Eq)]
pub struct Entry {
    pub volume: u32,
    pub saturation: u32,
    pub green: Green,
    /// Share arriving on green in thousandths (paper: P).
    pub on_green: u32,
}

#[derive(Clone, Copy, Debug, PartialEq, Eq)]
pub struct Record {
    pub number: u32,
    pub cycle: u32,
    /// Milliseconds (paper: r).
    pub running_time: u32,
    /// Critical headway, milliseconds (paper: h).
    pub headway: u32,
    pub entries: [Entry; 3],
    pub access_volume: u32,
    pub exits: [u32; 4],
    pub downstream: [Green; 3],
    pub seeds: Seeds,
}

/// Decodes a record, or gives the lowest of the refusals 6 to 12 that applies.
pub fn decode(bytes: &[u8]) -> Result<Record, Refusal> {
    if bytes.len() != RECORD_BYTES {
        return Err(refusal::RECORD_LENGTH);
    }
    let mut record = fields(bytes);
    check(&record)?;
    if record.seeds == [[0; 4]; 4] {
        record.seeds = DEFAULT_SEEDS;
    }
    Ok(record)
}

pub fn read_u16(bytes: &[u8], at: usize) -> u32 {
    u32::from(bytes[at]) | u32::from(bytes[at + 1]) << 8
}

pub fn read_u32(bytes: &[u8], at: usize) -> u32 {
    read_u16(bytes, at) | read_u16(bytes, at + 2) << 16
}

fn read_green(bytes: &[u8], at: usize) -> Green {
    Green {
        start: Post(u32::from(bytes[at])),
        length: u32::from(bytes[at + 1]),
    }
}

fn read_entry(bytes: &[u8], at: usize) -> Entry {
    Entry {
        volume: read_u16(bytes, at + VOLUME_IN),
        saturation: read_u16(bytes, at + SATURATION_IN),
        green: read_green(bytes, at + GREEN_IN),
        on_green: read_u16(bytes, at + ON_GREEN_IN),
    }
}

/// The fields as they stand in 68 bytes, untested.
fn fields(bytes: &[u8]) -> Record {
    let mut seeds = [[0; 4]; 4];
    for (row, part) in seeds.iter_mut().zip(bytes[SEEDS_AT..].chunks_exact(4)) {
        row.copy_from_slice(part);
    }
    Record {
        number: read_u32(bytes, NUMBER_AT),
        cycle: read_u16(bytes, CYCLE_AT),
        running_time: read_u32(bytes, RUNNING_TIME_AT),
        headway: read_u16(bytes, HEADWAY_AT),
        entries: [LEFT, THROUGH, RIGHT].map(|i| read_entry(bytes, ENTRIES_AT + ENTRY_BYTES * i)),
        access_volume: read_u16(bytes, ACCESS_AT),
        exits: [LEFT, THROUGH, RIGHT, ACCESS].map(|j| read_u16(bytes, EXITS_AT + 2 * j)),
        downstream: [LEFT, THROUGH, RIGHT].map(|j| read_green(bytes, DOWNSTREAM_AT + 2 * j)),
        seeds,
    }
}

/// Refusals 7 to 12 in order. The number of the record is not tested here.
fn check(record: &Record) -> Result<(), Refusal> {
    if !(CYCLE_LEAST..=CYCLE_MOST).contains(&record.cycle) {
        return Err(refusal::CYCLE);
    }
    if !(RUNNING_TIME_LEAST..=RUNNING_TIME_MOST).contains(&record.running_time) {
        return Err(refusal::RUNNING_TIME);
    }
    if !HEADWAYS.contains(&record.headway) {
        return Err(refusal::HEADWAY);
    }
    if !volumes_in_range(record) {
        return Err(refusal::VOLUME);
    }
    if !greens_in_range(record) {
        return Err(refusal::GREEN);
    }
    if !seeds_add_up(&record.seeds) {
        return Err(refusal::SEEDS);
    }
    Ok(())
}

fn volumes_in_range(record: &Record) -> bool {
    let entry = |e: &Entry| e.volume <= 6000 && e.saturation <= 12000 && e.on_green <= 1000;
    record.entries.iter().all(entry)
        && record.access_volume <= 6000
        && record.exits.iter().all(|&exit| exit <= 12000)
}

fn greens_in_range(record: &Record) -> bool {
    let cycle = record.cycle;
    record.entries.iter().all(|entry| entry.green.fits(cycle))
        && record.downstream.iter().all(|green| green.fits(cycle))
}

/// Sixteen zeros, or each row adds to 100.
fn seeds_add_up(seeds: &Seeds) -> bool {
    let total = |row: &[u8; 4]| row.iter().map(|&seed| u32::from(seed)).sum::<u32>();
    *seeds == [[0; 4]; 4] || seeds.iter().all(|row| total(row) == 100)
}
