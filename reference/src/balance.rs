//! Balancing of discharge and exit volumes, and the pair flows.
//! All in 64-bit floats of vehicles an hour, each operation rounded once, sums nested to the left.
//! Discharge volumes come in thousandths, and each is divided once.

use crate::record::{Seeds, ACCESS, LEFT, RIGHT, THROUGH};
use crate::refusal::{self, Refusal};

/// The most rounds of a balance.
pub const ROUND_LIMIT: u32 = 200;
/// A round settles where its differences add to less than this.
pub const SETTLED_BELOW: f64 = 1.0 / 100.0;

/// Four floats, of the entries or of the exits, in the paper's order.
pub type Four = [f64; 4];
/// Flow units of the sixteen pairs (paper: v), a row for each entry that adds to its discharge volume.
pub type PairFlows = [[u32; 4]; 4];

/// The outcome with the last sum of differences reached.
#[derive(Clone, Copy, Debug, PartialEq)]
pub enum Outcome {
    Settled(f64),
    Unsettled(f64),
}

/// What stopped a balance before the limit of rounds.
#[derive(Clone, Copy, Debug, PartialEq, Eq)]
pub enum Stop {
    /// An exit's adjusted volume is not finite.
    ExitVolume,
    /// An exit with volume has the adjusted volume 0.
    ExitEmpty,
    /// An exit's ratio is not finite.
    Ratio,
    /// An entry's factor is not finite.
    Factor,
    /// An entry with discharge has the factor 0.
    FactorZero,
    /// A new adjusted origin is not finite.
    Origin,
    /// The sum of differences is not finite.
    Sum,
    /// A cell of the settling round is not finite.
    Cell,
}

#[derive(Clone, Copy, Debug, PartialEq)]
pub struct Balance {
    pub outcome: Outcome,
    /// Rounds whose sum of differences was reached.
    pub rounds: u32,
    /// A row for each entry; all zero where unsettled.
    pub cells: [Four; 4],
    /// Why it stopped early, if it did.
    pub stop: Option<Stop>,
}

/// What stays the same through the rounds.
struct Problem {
    origins: Four,
    exits: Four,
    shares: [Four; 4],
}

/// What a full round leaves.
struct Round {
    origins: Four,
    ratios: Four,
    sum: f64,
}

fn sum(term: impl Fn(usize) -> f64) -> f64 {
    ((term(0) + term(1)) + term(2)) + term(3)
}

fn four(term: impl Fn(usize) -> f64) -> Four {
    [term(0), term(1), term(2), term(3)]
}

fn finite(numbers: &Four) -> bool {
    numbers.iter().all(|number| number.is_finite())
}

impl Problem {
    fn new(discharge: &[u32; 4], exits: &[u32; 4], seeds: &Seeds) -> Problem {
        let origins = discharge.map(|volume| f64::from(volume) / 1000.0);
        let volumes = exits.map(f64::from);
        let total = sum(|i| origins[i]);
        let exit_total = sum(|j| volumes[j]);
        Problem {
            origins,
            exits: four(|j| (volumes[j] * total) / exit_total),
            shares: seeds.map(|row| row.map(|seed| f64::from(seed) / 100.0)),
        }
    }

    /// One round, equations 30-4 to 30-7, on the adjusted origins `old`.
    fn round(&self, old: &Four) -> Result<Round, Stop> {
        let volumes = four(|j| sum(|i| old[i] * self.shares[i][j]));
        let ratios = self.ratios(&volumes)?;
        let factors = four(|i| sum(|j| ratios[j] * self.shares[i][j]));
        let origins = self.new_origins(&factors)?;
        let difference = |i: usize| origins[i].max(old[i]) - origins[i].min(old[i]);
        let sum = sum(difference);
        if !sum.is_finite() {
            return Err(Stop::Sum);
        }
        Ok(Round {
            origins,
            ratios,
            sum,
        })
    }

    /// b of each exit from its adjusted volume Da.
    fn ratios(&self, volumes: &Four) -> Result<Four, Stop> {
        if !finite(volumes) {
            return Err(Stop::ExitVolume);
        }
        if (0..4).any(|j| self.exits[j] > 0.0 && volumes[j] == 0.0) {
            return Err(Stop::ExitEmpty);
        }
        let ratio = |j: usize| self.exits[j] / volumes[j];
        let ratios = four(|j| if self.exits[j] == 0.0 { 0.0 } else { ratio(j) });
        if !finite(&ratios) {
            return Err(Stop::Ratio);
        }
        Ok(ratios)
    }

    /// New Oa of each entry from its factor.
    fn new_origins(&self, factors: &Four) -> Result<Four, Stop> {
        if !finite(factors) {
            return Err(Stop::Factor);
        }
        if (0..4).any(|i| self.origins[i] > 0.0 && factors[i] == 0.0) {
            return Err(Stop::FactorZero);
        }
        let origin = |i: usize| self.origins[i] / factors[i];
        let origins = four(|i| {
            if self.origins[i] == 0.0 {
                0.0
            } else {
                origin(i)
            }
        });
        if !finite(&origins) {
            return Err(Stop::Origin);
        }
        Ok(origins)
    }

    /// Cells from the new origins and the ratios of the same round.
    fn cells(&self, round: &Round) -> [Four; 4] {
        let cell = |i: usize, j: usize| (round.origins[i] * round.ratios[j]) * self.shares[i][j];
        [0, 1, 2, 3].map(|i| four(|j| cell(i, j)))
    }

    fn settled(&self, round: &Round, rounds: u32) -> Balance {
        let cells = self.cells(round);
        if !cells.iter().all(finite) {
            return unsettled(round.sum, rounds, Some(Stop::Cell));
        }
        Balance {
            outcome: Outcome::Settled(round.sum),
            rounds,
            cells,
            stop: None,
        }
    }
}

fn unsettled(last_sum: f64, rounds: u32, stop: Option<Stop>) -> Balance {
    Balance {
        outcome: Outcome::Unsettled(last_sum),
        rounds,
        cells: [[0.0; 4]; 4],
        stop,
    }
}

/// Balances volumes that passed `check_volumes`, in at most `limit` rounds.
pub fn balance(discharge: &[u32; 4], exits: &[u32; 4], seeds: &Seeds, limit: u32) -> Balance {
    let problem = Problem::new(discharge, exits, seeds);
    let mut origins = problem.origins;
    let mut last_sum = 0.0;
    for before in 0..limit {
        let round = match problem.round(&origins) {
            Ok(round) => round,
            Err(stop) => return unsettled(last_sum, before, Some(stop)),
        };
        if round.sum < SETTLED_BELOW {
            return problem.settled(&round, before + 1);
        }
        last_sum = round.sum;
        origins = round.origins;
    }
    unsettled(last_sum, limit, None)
}

/// Refusals 13 and 14.
pub fn check_volumes(discharge: &[u32; 4], exits: &[u32; 4], seeds: &Seeds) -> Result<(), Refusal> {
    if discharge.iter().all(|&volume| volume == 0) || exits.iter().all(|&volume| volume == 0) {
        return Err(refusal::NO_VOLUME);
    }
    let linked = |i: usize, j: usize| discharge[i] > 0 && exits[j] > 0 && seeds[i][j] > 0;
    let entry_unserved = |i: usize| discharge[i] > 0 && !(0..4).any(|j| linked(i, j));
    let exit_unserved = |j: usize| exits[j] > 0 && !(0..4).any(|i| linked(i, j));
    if (0..4).any(entry_unserved) || (0..4).any(exit_unserved) {
        return Err(refusal::UNSERVED);
    }
    Ok(())
}

/// Pair flows of all entries, row by row.
pub fn pair_flows(discharge: &[u32; 4], cells: &[Four; 4]) -> PairFlows {
    [0, 1, 2, 3].map(|i| entry_flows(discharge[i], &cells[i]))
}

/// One entry's row: exits left, right, access in turn, then through takes what is left.
fn entry_flows(discharge: u32, cells: &Four) -> [u32; 4] {
    let mut row = [0; 4];
    let mut left_over = discharge;
    for j in [LEFT, RIGHT, ACCESS] {
        row[j] = whole_part_or(cells[j] * 1000.0, left_over);
        left_over -= row[j];
    }
    row[THROUGH] = left_over;
    row
}

/// The whole part of `amount`, or `left_over` where that is less.
fn whole_part_or(amount: f64, left_over: u32) -> u32 {
    if amount < f64::from(left_over) {
        amount as u32
    } else {
        left_over
    }
}
