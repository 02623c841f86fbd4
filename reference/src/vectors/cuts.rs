//! Discharge with another cut of what arrives on green, to find entries that tell them apart.

use crate::discharge::cycle_units;
use crate::metering::{discharge_volume, UNITS};
use crate::record::Entry;

/// How T·P/1000 becomes G.
#[derive(Clone, Copy, Debug, PartialEq, Eq)]
pub enum Cut {
    /// Its whole part, as in the paper.
    Down,
    Up,
    Nearest,
    /// Not at all: green step k has received the whole part of k·T·P/1000/g.
    Not,
}

pub const OTHER_CUTS: [Cut; 3] = [Cut::Up, Cut::Nearest, Cut::Not];

impl Cut {
    /// G, given T·P.
    fn on_green(self, product: u64) -> u64 {
        match self {
            Cut::Down | Cut::Not => product / 1000,
            Cut::Up => product.div_ceil(1000),
            Cut::Nearest => (product + 500) / 1000,
        }
    }

    /// What has been received by the end of green step `k` of `length`.
    fn received_by(self, product: u64, k: u64, length: u64) -> u64 {
        match self {
            Cut::Not => k * product / (1000 * length),
            _ => k * self.on_green(product) / length,
        }
    }
}

/// The discharge of an entry over one cycle: what has left by a green step is all that has come, or what had left by
/// the step before and as much as a step can discharge.
pub fn cut_discharge(cut: Cut, entry: &Entry, cycle: u32) -> Vec<u32> {
    let total = cycle_units(discharge_volume(entry, cycle), cycle);
    let product = total * u64::from(entry.on_green);
    let length = u64::from(entry.green.length);
    let most = u64::from(UNITS * entry.saturation);
    let mut profile = vec![0; cycle as usize];
    let mut left = 0;
    for (step, k) in entry.green.steps(cycle).zip(1..) {
        let come = total - cut.on_green(product) + cut.received_by(product, k, length);
        let now = come.min(left + most);
        profile[step.index()] = (now - left) as u32;
        left = now;
    }
    profile
}
