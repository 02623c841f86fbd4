//! Balancing with one operation order changed, to find cases that tell them apart.

use crate::balance::{pair_flows, Four, PairFlows, ROUND_LIMIT, SETTLED_BELOW};
use crate::record::Seeds;

/// Where the order differs from the paper's.
#[derive(Clone, Copy, Debug, PartialEq, Eq)]
pub enum Order {
    Paper,
    /// exit · (total / sum) for (exit · total) / sum.
    ExitRatio,
    /// Sums from access to left.
    ReversedSums,
    /// Oa · (b · p) for (Oa · b) · p.
    CellRight,
    /// seed · 0.01 for seed / 100.
    SeedTimes,
    /// Products and sums fused.
    Fused,
    /// The discharge volumes added in thousandths, and the sum divided by 1000.
    WholeTotal,
    /// thousandths · 0.001 for thousandths / 1000.
    ThousandthTimes,
}

pub const OTHER_ORDERS: [Order; 5] = [
    Order::ExitRatio,
    Order::ReversedSums,
    Order::CellRight,
    Order::SeedTimes,
    Order::Fused,
];

/// What an order of its own does with the thousandths of a discharge volume.
pub const THOUSANDTH_ORDERS: [Order; 2] = [Order::WholeTotal, Order::ThousandthTimes];

impl Order {
    fn sum(self, [a, b, c, d]: Four) -> f64 {
        match self {
            Order::ReversedSums => ((d + c) + b) + a,
            _ => ((a + b) + c) + d,
        }
    }

    fn dot(self, left: Four, right: Four) -> f64 {
        if self == Order::Fused {
            let first = left[0] * right[0];
            return (1..4).fold(first, |sum, n| left[n].mul_add(right[n], sum));
        }
        self.sum([0, 1, 2, 3].map(|n| left[n] * right[n]))
    }

    /// A discharge volume in vehicles an hour.
    fn origin(self, thousandths: u32) -> f64 {
        match self {
            Order::ThousandthTimes => f64::from(thousandths) * 0.001,
            _ => f64::from(thousandths) / 1000.0,
        }
    }

    /// The total discharge in vehicles an hour.
    fn total(self, discharge: &[u32; 4]) -> f64 {
        match self {
            Order::WholeTotal => self.sum(discharge.map(f64::from)) / 1000.0,
            _ => self.sum(discharge.map(|volume| self.origin(volume))),
        }
    }

    fn seed(self, hundredths: u8) -> f64 {
        match self {
            Order::SeedTimes => f64::from(hundredths) * 0.01,
            _ => f64::from(hundredths) / 100.0,
        }
    }

    fn exit(self, volume: f64, total: f64, sum: f64) -> f64 {
        match self {
            Order::ExitRatio => volume * (total / sum),
            _ => (volume * total) / sum,
        }
    }

    fn cell(self, origin: f64, ratio: f64, share: f64) -> f64 {
        match self {
            Order::CellRight => origin * (ratio * share),
            _ => (origin * ratio) * share,
        }
    }
}

/// Quotient, or 0 where the dividend is 0.
fn over(dividend: f64, divisor: f64) -> f64 {
    if dividend == 0.0 {
        0.0
    } else {
        dividend / divisor
    }
}

/// The pair flows in this order of operations, if the balance settles.
pub fn flows(
    order: Order,
    discharge: &[u32; 4],
    exits: &[u32; 4],
    seeds: &Seeds,
) -> Option<PairFlows> {
    const ALL: [usize; 4] = [0, 1, 2, 3];
    let origins = discharge.map(|volume| order.origin(volume));
    let volumes = exits.map(f64::from);
    let (total, exit_total) = (order.total(discharge), order.sum(volumes));
    let targets = volumes.map(|volume| order.exit(volume, total, exit_total));
    let shares = seeds.map(|row| row.map(|seed| order.seed(seed)));
    let mut old = origins;
    for _ in 0..ROUND_LIMIT {
        let ratios = ALL.map(|j| over(targets[j], order.dot(old, ALL.map(|i| shares[i][j]))));
        let new = ALL.map(|i| over(origins[i], order.dot(ratios, shares[i])));
        let sum = order.sum(ALL.map(|i| (new[i] - old[i]).abs()));
        if !sum.is_finite() {
            return None;
        }
        if sum < SETTLED_BELOW {
            let cells = ALL.map(|i| ALL.map(|j| order.cell(new[i], ratios[j], shares[i][j])));
            return Some(pair_flows(discharge, &cells));
        }
        old = new;
    }
    None
}
