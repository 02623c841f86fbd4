//! Discharge profiles of the signalised entries.

use crate::metering::{discharge_volume, UNITS};
use crate::record::{decode, Entry};
use crate::refusal::{self, Refusal};

/// Flow units that one cycle carries (paper: T).
pub fn cycle_units(volume: u32, cycle: u32) -> u64 {
    u64::from(volume) * u64::from(cycle)
}

/// Of these flow units, those that arrive on green (paper: G), given its share in thousandths.
pub fn green_units(total: u64, on_green: u32) -> u64 {
    total * u64::from(on_green) / 1000
}

/// Of `on_green` flow units, those received by the end of green step `k` of `length`.
pub fn received_by(on_green: u64, k: u64, length: u32) -> u64 {
    k * on_green / u64::from(length)
}

/// Writes the discharge of one entry over one cycle; the profile has C numbers.
pub fn fill_discharge(entry: &Entry, profile: &mut [u32]) {
    let cycle = profile.len() as u32;
    let total = cycle_units(discharge_volume(entry, cycle), cycle);
    let on_green = green_units(total, entry.on_green);
    let most = u64::from(UNITS) * u64::from(entry.saturation);
    let mut waiting = total - on_green;
    let mut before = 0;
    profile.fill(0);
    for (step, k) in entry.green.steps(cycle).zip(1u64..) {
        let received = received_by(on_green, k, entry.green.length);
        waiting += received - before;
        before = received;
        let leaving = waiting.min(most);
        profile[step.index()] = leaving as u32;
        waiting -= leaving;
    }
}

/// The discharge of one entry over one cycle.
pub fn entry_discharge(entry: &Entry, cycle: u32) -> Vec<u32> {
    let mut profile = vec![0; cycle as usize];
    fill_discharge(entry, &mut profile);
    profile
}

/// The discharge call: three profiles of C numbers to one profile; the three discharge volumes.
pub fn discharge(bytes: &[u8], profile: &mut [u32]) -> Result<[u32; 3], Refusal> {
    let record = decode(bytes)?;
    let cycle = record.cycle as usize;
    if profile.len() < 3 * cycle {
        return Err(refusal::PROFILE);
    }
    for (entry, part) in record.entries.iter().zip(profile.chunks_exact_mut(cycle)) {
        fill_discharge(entry, part);
    }
    Ok(record
        .entries
        .map(|entry| discharge_volume(&entry, record.cycle)))
}
