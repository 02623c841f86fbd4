//! The dispersion worked exactly, in fractions: the flow from an empty link, and the repeating flow.

use crate::dispersion::{denominator, CYCLES, NUMERATOR};
use crate::natural::Natural;
use std::iter::successors;

/// Two flows that the reported cycle is measured by.
#[derive(Clone, Copy, Debug, PartialEq, Eq)]
pub enum Exact {
    /// From an empty link over the same cycles.
    FromEmpty,
    /// The one flow that satisfies the recurrence around the cycle.
    Repeating,
}

impl Exact {
    /// The exact arrivals in each discharge step of the reported cycle.
    /// Each entry discharges the same in every cycle.
    pub fn reported(self, discharges: &[&[u32]], running_time: u32) -> Vec<ExactArrivals> {
        match self {
            Exact::FromEmpty => from_empty(discharges, running_time, CYCLES),
            Exact::Repeating => repeating(discharges, running_time),
        }
    }
}

/// The exact arrivals of each entry in one step: fractions over one denominator.
#[derive(Clone, Debug)]
pub struct ExactArrivals {
    pub numerators: Vec<Natural>,
    pub over: Natural,
}

impl ExactArrivals {
    /// The fractions over `wholes`, each entry's own, brought to one denominator again.
    pub fn divided(mut self, wholes: &[u64]) -> ExactArrivals {
        for (i, numerator) in self.numerators.iter_mut().enumerate() {
            let others = wholes.iter().enumerate().filter(|(n, _)| *n != i);
            others.for_each(|(_, &whole)| numerator.multiply(whole));
        }
        wholes.iter().for_each(|&whole| self.over.multiply(whole));
        self
    }

    /// The numerator of a flow: the entries' arrivals, each times its factor, and a steady flow.
    pub fn flow(&self, factors: &[u64], steady: u64) -> Natural {
        let mut flow = self.over.times(steady);
        for (numerator, &factor) in self.numerators.iter().zip(factors) {
            flow.add_times(numerator, factor);
        }
        flow
    }

    /// A flow that was found differs from an exact one, given by its numerator, by less than `distance`.
    pub fn within(&self, distance: u64, found: u32, flow: &Natural) -> bool {
        let found = u64::from(found);
        let low = self.over.times(found);
        let high = self.over.times(found + distance);
        *flow < high && low < flow.plus(&self.over.times(distance))
    }

    /// Xk and D^k from those of the step before: Xk = N·q·D^(k-1) + (D-N)·X(k-1), q the discharge of the step.
    fn step(&mut self, leaving: impl Iterator<Item = u32>, divisor: u64) {
        for (x, q) in self.numerators.iter_mut().zip(leaving) {
            x.multiply(divisor - NUMERATOR);
            x.add_times(&self.over, NUMERATOR * u64::from(q));
        }
        self.over.multiply(divisor);
    }
}

/// The last of so many cycles from an empty link: Xk/D^k, k running on through all of them.
pub fn from_empty(discharges: &[&[u32]], running_time: u32, cycles: usize) -> Vec<ExactArrivals> {
    let steps = discharges[0].len();
    let divisor = denominator(running_time);
    let mut now = ExactArrivals {
        numerators: vec![Natural::zero(); discharges.len()],
        over: Natural::one(),
    };
    let mut last = Vec::with_capacity(steps);
    for k in 0..cycles * steps {
        now.step(discharges.iter().map(|q| q[k % steps]), divisor);
        if k >= (cycles - 1) * steps {
            last.push(now.clone());
        }
    }
    last
}

/// The repeating flow: (Xk·W + (D-N)^k·XC)/(D^k·W) with W = D^C - (D-N)^C, X worked over one cycle from empty.
pub fn repeating(discharges: &[&[u32]], running_time: u32) -> Vec<ExactArrivals> {
    let once = from_empty(discharges, running_time, 1);
    let end = once.last().expect("a cycle has steps");
    let kept = denominator(running_time) - NUMERATOR;
    let first = Natural::one().times(kept);
    let powers: Vec<Natural> = successors(Some(first), |power| Some(power.times(kept)))
        .take(once.len())
        .collect();
    let weight = end.over.minus(&powers[once.len() - 1]);
    let blend = |(x, power): (&ExactArrivals, &Natural)| ExactArrivals {
        numerators: (x.numerators.iter().zip(&end.numerators))
            .map(|(xk, xc)| xk.product(&weight).plus(&power.product(xc)))
            .collect(),
        over: x.over.product(&weight),
    };
    once.iter().zip(&powers).map(blend).collect()
}
