//! Arrivals at the exits: pair shares, landing, exit figures, blocked steps.

use crate::greens::{turned, Green, Step};

/// A step is blocked where flow·headway is above this.
pub const BLOCKED_ABOVE: u64 = 3_600_000_000;

/// What a signalised exit reports, in flow units.
#[derive(Clone, Copy, Debug, Default, PartialEq, Eq)]
pub struct ExitFigures {
    pub total: u64,
    pub green: u64,
    pub permille: u32,
}

/// One pair's share of its entry's arrivals, in discharge order.
pub struct PairShare {
    flow: u64,
    whole: u64,
    carry: u64,
}

impl PairShare {
    /// `flow` of the entry's discharge volume, which is not 0.
    pub fn new(flow: u32, volume: u32) -> PairShare {
        PairShare {
            flow: u64::from(flow),
            whole: u64::from(volume),
            carry: 0,
        }
    }

    pub fn take(&mut self, arrival: u32) -> u32 {
        let made = u64::from(arrival) * self.flow + self.carry;
        self.carry = made % self.whole;
        (made / self.whole) as u32
    }
}

/// Adds a pair's arrivals to an exit's run, landed `shift` steps later.
pub fn add_pair(arrivals: &[u32], flow: u32, volume: u32, shift: u32, run: &mut [u32]) {
    if volume == 0 || flow == 0 {
        return;
    }
    let mut share = PairShare::new(flow, volume);
    for (place, &arrival) in landed(run, shift).zip(arrivals) {
        *place += share.take(arrival);
    }
}

/// The places of a run in discharge order, landed `shift` steps later.
pub fn landed(run: &mut [u32], shift: u32) -> impl Iterator<Item = &mut u32> {
    let first = landing(Step(1), shift, run.len() as u32);
    let (early, late) = run.split_at_mut(first.index());
    late.iter_mut().chain(early)
}

/// Where a discharge step lands, `shift` steps later.
pub fn landing(step: Step, shift: u32, cycle: u32) -> Step {
    turned(step.0 + shift, cycle)
}

/// Total, part on green and thousandths of one exit's run.
pub fn exit_figures(run: &[u32], green: Green) -> ExitFigures {
    let total = total(run);
    let on_green: u64 = green
        .steps(run.len() as u32)
        .map(|step| u64::from(run[step.index()]))
        .sum();
    let permille = (1000 * on_green).checked_div(total).unwrap_or(0);
    ExitFigures {
        total,
        green: on_green,
        permille: permille as u32,
    }
}

pub fn total(run: &[u32]) -> u64 {
    run.iter().map(|&flow| u64::from(flow)).sum()
}

pub fn blocked(flow: u32, headway: u32) -> bool {
    u64::from(flow) * u64::from(headway) > BLOCKED_ABOVE
}

pub fn blocked_steps(run: &[u32], headway: u32) -> u32 {
    run.iter().filter(|&&flow| blocked(flow, headway)).count() as u32
}
