//! Checks of a working's result against the exact flows: demand 3, the repeating flow, the points.

use crate::arrivals::{landing, total, PairShare};
use crate::discharge::entry_discharge;
use crate::dispersion::{arrival_time, denominator, Link, CYCLES, NUMERATOR};
use crate::exact::{Exact, ExactArrivals};
use crate::greens::Step;
use crate::metering::discharge_volumes;
use crate::points::Point;
use crate::record::{Record, ACCESS, RIGHT};
use crate::working::Working;

/// A worked record with its profiles after the call, cut or not.
pub struct Worked<'a> {
    pub record: &'a Record,
    pub working: &'a Working,
    pub output: &'a [u32],
    pub first: &'a [u32],
    pub second: &'a [u32],
}

/// A signalised entry: its discharge volume, its discharge, and its arrivals over all cycles worked.
struct Platoon {
    volume: u32,
    leaving: Vec<u32>,
    arrivals: Vec<u32>,
}

impl Exact {
    fn name(self) -> &'static str {
        match self {
            Exact::FromEmpty => "the flow from empty",
            Exact::Repeating => "the repeating flow",
        }
    }

    /// An exit's flow differs by less than each of these: six in demand 3; nine in the request, and seven beyond it,
    /// since what 64 cycles leave of the empty link is far under one.
    fn exit_distances(self) -> &'static [u64] {
        match self {
            Exact::FromEmpty => &[6],
            Exact::Repeating => &[9, 7],
        }
    }

    /// A point's flow differs by less than each of these: one for each signalised entry; the request's six, and four beyond it.
    fn point_distances(self) -> &'static [u64] {
        match self {
            Exact::FromEmpty => &[3],
            Exact::Repeating => &[6, 4],
        }
    }
}

/// An accepted working: its work profiles, its exits beside each of the exact flows, parts 2 and 3 of demand 3.
/// The text names what fails.
pub fn check_working(worked: &Worked, exacts: &[Exact]) -> Result<(), String> {
    let record = worked.record;
    let platoons = platoons(record);
    check_work_profiles(worked, &platoons[RIGHT])?;
    for &exact in exacts {
        check_exits(worked, &platoons, exact)?;
    }
    for (i, platoon) in platoons.iter().enumerate() {
        check_balance(&platoon.leaving, &platoon.arrivals, record.running_time)
            .map_err(|text| format!("entry {i}: {text}"))?;
    }
    (0..4).try_for_each(|j| check_exit_pairs(worked, &platoons, j))
}

fn platoons(record: &Record) -> Vec<Platoon> {
    let volumes = discharge_volumes(record);
    let platoon = |i: usize| {
        let leaving = entry_discharge(&record.entries[i], record.cycle);
        let mut link = Link::empty(record.running_time);
        let all = leaving.iter().cycle().take(CYCLES * leaving.len());
        let arrivals = all.map(|&q| link.step(q)).collect();
        Platoon {
            volume: volumes[i],
            leaving,
            arrivals,
        }
    };
    (0..3).map(platoon).collect()
}

fn discharges(platoons: &[Platoon]) -> Vec<&[u32]> {
    platoons.iter().map(|p| &p.leaving[..]).collect()
}

/// The work profiles hold the right entry's last two cycles, those of odd number in the first.
fn check_work_profiles(worked: &Worked, right: &Platoon) -> Result<(), String> {
    let steps = worked.record.cycle as usize;
    let cycles = right.arrivals.chunks_exact(steps).enumerate();
    for (n, cycle) in cycles.rev().take(2) {
        let profile = [worked.first, worked.second][n % 2];
        if profile[..steps] != *cycle {
            return Err(format!("cycle {} is not in its work profile", n + 1));
        }
    }
    Ok(())
}

/// A run of flows and what makes it up: each entry's arrivals times a factor, and a steady flow.
struct Place<'a> {
    name: String,
    run: &'a [u32],
    factors: [u64; 3],
    steady: u64,
    distances: &'static [u64],
}

impl Place<'_> {
    /// The place's flow in a step is nearer to the exact one than all distances, or the first that it is not.
    fn check(&self, exact: &ExactArrivals, landed: Step) -> Result<(), u64> {
        let flow = exact.flow(&self.factors, self.steady);
        let found = self.run[landed.index()];
        let near = |distance: &&u64| exact.within(**distance, found, &flow);
        match self.distances.iter().find(|distance| !near(distance)) {
            None => Ok(()),
            Some(&distance) => Err(distance),
        }
    }
}

/// All places in every step of the reported cycle, whose exact arrivals land `shift` steps later.
fn check_places(
    places: &[Place],
    reported: impl ExactSizeIterator<Item = ExactArrivals>,
    shift: u32,
    exact: Exact,
) -> Result<(), String> {
    let cycle = reported.len() as u32;
    for (arrivals, step) in reported.zip(1..) {
        let landed = landing(Step(step), shift, cycle);
        for place in places {
            place.check(&arrivals, landed).map_err(|distance| {
                let (name, exact, step) = (&place.name, exact.name(), landed.0);
                format!("{name} is {distance} or more off {exact} in step {step}")
            })?;
        }
    }
    Ok(())
}

/// The exits: a pair's share of an entry is its flow of the entry's whole.
fn check_exits(worked: &Worked, platoons: &[Platoon], exact: Exact) -> Result<(), String> {
    let record = worked.record;
    let cycle = record.cycle as usize;
    let flow = |i: usize, j: usize| u64::from(worked.working.flows[i][j]);
    let exit = |j: usize| Place {
        name: format!("exit {j}"),
        run: &worked.output[j * cycle..(j + 1) * cycle],
        factors: [0, 1, 2].map(|i| flow(i, j)),
        steady: flow(ACCESS, j),
        distances: exact.exit_distances(),
    };
    // an entry without discharge has no arrivals to share
    let wholes: Vec<u64> = platoons.iter().map(|p| u64::from(p.volume.max(1))).collect();
    let reported = exact.reported(&discharges(platoons), record.running_time);
    let shares = reported
        .into_iter()
        .map(|arrivals| arrivals.divided(&wholes));
    let shift = arrival_time(record.running_time);
    check_places(&[0, 1, 2, 3].map(exit), shares, shift, exact)
}

/// The flow past each point beside each of the exact flows by the point's own running time; the text names the first that is off.
pub fn check_points(
    record: &Record,
    points: &[Point],
    passing: &[u32],
    exacts: &[Exact],
) -> Result<(), String> {
    let platoons = platoons(record);
    let [.., access] = discharge_volumes(record);
    let runs = passing.chunks_exact(record.cycle as usize);
    for (n, (point, run)) in points.iter().zip(runs).enumerate() {
        for &exact in exacts {
            let place = Place {
                name: format!("point {n}"),
                run,
                factors: [1; 3],
                steady: u64::from(access),
                distances: exact.point_distances(),
            };
            let reported = exact.reported(&discharges(&platoons), point.running);
            let shift = arrival_time(point.running);
            check_places(&[place], reported.into_iter(), shift, exact)?;
        }
    }
    Ok(())
}

/// Part 2 of demand 3: N·(discharged - arrived) - (D-N)·last is from 0 to D-1, over all cycles of these arrivals.
pub fn check_balance(leaving: &[u32], arrivals: &[u32], running_time: u32) -> Result<(), String> {
    let divisor = denominator(running_time);
    let cycles = (arrivals.len() / leaving.len()) as u64;
    let last = arrivals.last().map_or(0, |&last| u64::from(last));
    let on_link = i128::from(cycles * total(leaving)) - i128::from(total(arrivals));
    let kept = i128::from(divisor - NUMERATOR) * i128::from(last);
    let rest = i128::from(NUMERATOR) * on_link - kept;
    if !(0..i128::from(divisor)).contains(&rest) {
        return Err(format!("discharged less arrived leaves {rest}"));
    }
    Ok(())
}

/// Part 3: a pair's arrivals are its share of the entry's, short by less than one.
/// The exit's total must be its pairs' arrivals and access added.
fn check_exit_pairs(worked: &Worked, platoons: &[Platoon], j: usize) -> Result<(), String> {
    let cycle = worked.record.cycle as usize;
    let run = &worked.output[j * cycle..(j + 1) * cycle];
    let mut expected = cycle as u64 * u64::from(worked.working.flows[ACCESS][j]);
    for (i, platoon) in platoons.iter().enumerate().filter(|(_, p)| p.volume > 0) {
        let reported = &platoon.arrivals[platoon.arrivals.len() - cycle..];
        let flow = worked.working.flows[i][j];
        let pair = pair_arrivals(reported, flow, platoon.volume);
        let due = u64::from(flow) * total(reported);
        let whole = u64::from(platoon.volume);
        if pair * whole > due || due - pair * whole >= whole {
            return Err(format!("pair {i} {j} is off its share"));
        }
        expected += pair;
    }
    if total(run) != expected {
        return Err(format!("exit {j} does not hold its pairs"));
    }
    Ok(())
}

/// A pair's arrivals over the reported cycle, its share being `flow` of `whole`.
fn pair_arrivals(reported: &[u32], flow: u32, whole: u32) -> u64 {
    let mut share = PairShare::new(flow, whole);
    reported.iter().map(|&a| u64::from(share.take(a))).sum()
}
