//! Metering: capacity and discharge volume of the entries, in thousandths of a vehicle an hour.
//! Such a thousandth is one flow unit in each step.

use crate::record::{Entry, Record};

/// Flow units (paper: grains) per step for one vehicle an hour.
pub const UNITS: u32 = 1000;

/// Whole part of 1000·saturation·g/C; the product is under 2^32 for every record in range.
pub fn capacity(saturation: u32, green_length: u32, cycle: u32) -> u32 {
    UNITS * saturation * green_length / cycle
}

/// Discharge volume of a signalised entry (paper: O).
pub fn discharge_volume(entry: &Entry, cycle: u32) -> u32 {
    let capacity = capacity(entry.saturation, entry.green.length, cycle);
    capacity.min(UNITS * entry.volume)
}

/// Discharge volumes of the four entries; access discharges its volume.
pub fn discharge_volumes(record: &Record) -> [u32; 4] {
    let [left, through, right] = record.entries.map(|e| discharge_volume(&e, record.cycle));
    [left, through, right, UNITS * record.access_volume]
}
