//! Points along the segment (paper: driveways), and the working with them.

use crate::arrivals::{blocked_steps, landed};
use crate::dispersion::{arrival_time, Ending, Link};
use crate::record::{decode, Record, ACCESS, HEADWAYS, RUNNING_TIME_LEAST};
use crate::refusal::{self, Refusal};
use crate::working::{check_lengths, decide, write, Refused, Working};

pub const POINTS_MOST: usize = 8;

/// Running time from the upstream signal and critical headway, milliseconds.
#[derive(Clone, Copy, Debug, Default, PartialEq, Eq)]
pub struct Point {
    pub running: u32,
    pub headway: u32,
}

impl Point {
    /// At the far signal or before it, with a headway in range.
    fn fits(&self, record: &Record) -> bool {
        (RUNNING_TIME_LEAST..=record.running_time).contains(&self.running)
            && HEADWAYS.contains(&self.headway)
    }
}

/// The first `count` points are given; the other places are not looked at.
#[derive(Clone, Copy, Debug, Default, PartialEq, Eq)]
pub struct Points {
    pub count: u32,
    pub at: [Point; POINTS_MOST],
}

impl Points {
    /// The given points, or 19 where they are too many, or 20 where one does not fit.
    fn given(&self, record: &Record) -> Result<&[Point], Refusal> {
        let given = self.at.get(..self.count as usize);
        let given = given.ok_or(refusal::POINT_COUNT)?;
        if !given.iter().all(|point| point.fits(record)) {
            return Err(refusal::POINT);
        }
        Ok(given)
    }
}

/// What an accepted working with points returns.
#[derive(Clone, Copy, Debug, PartialEq)]
pub struct PointWorking {
    pub working: Working,
    /// Blocked steps at each point, 0 where none is given.
    pub blocked: [u32; POINTS_MOST],
}

/// Works a record with points; `passing` takes a run of C numbers for each. A refusal writes nothing.
pub fn work_points(
    bytes: &[u8],
    points: &Points,
    output: &mut [u32],
    passing: &mut [u32],
    first: &mut [u32],
    second: &mut [u32],
) -> Result<PointWorking, Refused> {
    let ending = Ending::AllCycles;
    work_points_ending(bytes, points, ending, output, passing, first, second)
}

/// As `work_points`, with a choice of how many cycles are worked.
pub fn work_points_ending(
    bytes: &[u8],
    points: &Points,
    ending: Ending,
    output: &mut [u32],
    passing: &mut [u32],
    first: &mut [u32],
    second: &mut [u32],
) -> Result<PointWorking, Refused> {
    let record = decode(bytes)?;
    let given = points.given(&record)?;
    check_lengths(&record, output, first, second)?;
    let cycle = record.cycle as usize;
    let runs = passing.get_mut(..given.len() * cycle);
    let runs = runs.ok_or(refusal::PROFILE)?;
    let decision = decide(&record)?;
    runs.fill(decision.volumes[ACCESS]);
    let add = |leaving: &[u32]| add_entry(leaving, given, ending, runs);
    let working = write(&record, &decision, ending, output, first, second, add);
    let blocked = blocked_at(given, runs, cycle);
    Ok(PointWorking { working, blocked })
}

/// Adds all of one entry's arrivals to the run of each point, dispersed and landed by the point's running time.
fn add_entry(leaving: &[u32], points: &[Point], ending: Ending, runs: &mut [u32]) {
    for (point, run) in points.iter().zip(runs.chunks_exact_mut(leaving.len())) {
        let shift = arrival_time(point.running);
        let mut link = Link::before_last(leaving, point.running, ending);
        for (place, &leaving) in landed(run, shift).zip(leaving) {
            *place += link.step(leaving);
        }
    }
}

/// The blocked steps of each run by its point's headway.
fn blocked_at(points: &[Point], runs: &[u32], cycle: usize) -> [u32; POINTS_MOST] {
    let mut blocked = [0; POINTS_MOST];
    let runs = runs.chunks_exact(cycle).zip(points);
    for (count, (run, point)) in blocked.iter_mut().zip(runs) {
        *count = blocked_steps(run, point.headway);
    }
    blocked
}
