//! Faults of a record: one field out of its range.

use super::product;
use crate::record::{
    ACCESS_AT, CYCLE_AT, DOWNSTREAM_AT, ENTRIES_AT, ENTRY_BYTES, EXITS_AT, GREEN_IN, HEADWAY_AT,
    ON_GREEN_IN, RUNNING_TIME_AT, SATURATION_IN, SEEDS_AT, VOLUME_IN,
};
use crate::refusal::{self, Refusal};
use crate::samples::RecordBytes;

/// Bytes to write at a place, and the refusal they cause alone.
#[derive(Clone, Debug)]
pub struct Fault {
    pub number: Refusal,
    at: usize,
    bytes: Vec<u8>,
}

impl Fault {
    fn new(number: Refusal, at: usize, bytes: &[u8]) -> Fault {
        Fault {
            number,
            at,
            bytes: bytes.to_vec(),
        }
    }

    fn short(number: Refusal, at: usize, value: u16) -> Fault {
        Fault::new(number, at, &value.to_le_bytes())
    }

    /// The record with this fault.
    pub fn applied(&self, mut record: RecordBytes) -> RecordBytes {
        record[self.at..self.at + self.bytes.len()].copy_from_slice(&self.bytes);
        record
    }
}

/// Every field out of range at each end, for a record that is in range without seeds.
pub fn faults(cycle: u32) -> Vec<Fault> {
    let cycles = [0, 29, 241, 30 + 256, u16::MAX];
    let headways = [0, 999, 10001, u16::MAX];
    [
        cycles
            .map(|value| Fault::short(refusal::CYCLE, CYCLE_AT, value))
            .to_vec(),
        running_time_faults(),
        headways
            .map(|value| Fault::short(refusal::HEADWAY, HEADWAY_AT, value))
            .to_vec(),
        volume_faults(),
        green_faults(cycle as u8),
        (0..4).flat_map(seed_faults).collect(),
    ]
    .concat()
}

fn running_time_faults() -> Vec<Fault> {
    let values: [u32; 5] = [0, 999, 300_001, 40_000 + 5 * 65536, u32::MAX];
    let fault = |value: u32| {
        let bytes = value.to_le_bytes();
        Fault::new(refusal::RUNNING_TIME, RUNNING_TIME_AT, &bytes)
    };
    values.map(fault).to_vec()
}

fn volume_faults() -> Vec<Fault> {
    let over = |(at, most): (usize, u16)| {
        [most + 1, u16::MAX].map(|value| Fault::short(refusal::VOLUME, at, value))
    };
    volume_fields().into_iter().flat_map(over).collect()
}

fn green_faults(cycle: u8) -> Vec<Fault> {
    let greens = [[cycle, 1], [cycle, 0], [255, 1], [0, cycle + 1], [0, 255]];
    product(&green_fields(), &greens)
        .into_iter()
        .map(|(at, green)| Fault::new(refusal::GREEN, at, &green))
        .collect()
}

/// Offsets and most of every volume, saturation and share arriving on green.
pub fn volume_fields() -> Vec<(usize, u16)> {
    let mut fields = Vec::new();
    for i in 0..3 {
        let at = ENTRIES_AT + ENTRY_BYTES * i;
        fields.extend([(at + VOLUME_IN, 6000), (at + SATURATION_IN, 12000)]);
        fields.push((at + ON_GREEN_IN, 1000));
    }
    fields.push((ACCESS_AT, 6000));
    fields.extend((0..4).map(|j| (EXITS_AT + 2 * j, 12000)));
    fields
}

/// Offsets of the greens, upstream and downstream.
pub fn green_fields() -> Vec<usize> {
    let upstream = (0..3).map(|i| ENTRIES_AT + ENTRY_BYTES * i + GREEN_IN);
    upstream
        .chain((0..3).map(|j| DOWNSTREAM_AT + 2 * j))
        .collect()
}

/// Row `i` that does not add to 100 beside three that do; too few seeds.
fn seed_faults(i: usize) -> Vec<Fault> {
    let rows = [
        [25, 25, 25, 24],
        [25, 26, 25, 25],
        [0; 4],
        [89; 4],
        [255; 4],
        [100, 0, 0, 255],
    ];
    let mut faults = Vec::new();
    for row in rows {
        let mut seeds = [[25; 4]; 4];
        seeds[i] = row;
        faults.push(Fault::new(refusal::SEEDS, SEEDS_AT, &seeds.concat()));
    }
    let mut seeds = [[0; 4]; 4];
    seeds[i][1] = 100;
    faults.push(Fault::new(refusal::SEEDS, SEEDS_AT, &seeds.concat()));
    faults.push(Fault::new(refusal::SEEDS, SEEDS_AT + 5 * i, &[1]));
    faults
}

/// Two faults at once, the lower number first, some for each two numbers.
pub fn fault_pairs(cycle: u32) -> Vec<[Fault; 2]> {
    let all = faults(cycle);
    let with = |number: Refusal| -> Vec<Fault> {
        let faults = all.iter().filter(|fault| fault.number == number);
        faults.cloned().collect()
    };
    let numbers: Vec<Refusal> = (refusal::CYCLE..=refusal::SEEDS).collect();
    let rising = product(&numbers, &numbers)
        .into_iter()
        .filter(|(low, high)| low < high);
    rising
        .flat_map(|(low, high)| some_pairs(&with(low), &with(high)))
        .collect()
}

/// Each seventh of the high faults with one of the low.
fn some_pairs(low: &[Fault], high: &[Fault]) -> Vec<[Fault; 2]> {
    let high = high.iter().step_by(7).enumerate();
    high.map(|(n, fault)| [low[n * 5 % low.len()].clone(), fault.clone()])
        .collect()
}
