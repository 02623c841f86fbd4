//! The working of a segment record.

use crate::arrivals::{add_pair, blocked_steps, exit_figures, total, ExitFigures};
use crate::balance::{balance, check_volumes, pair_flows, Outcome, PairFlows, ROUND_LIMIT};
use crate::discharge::fill_discharge;
use crate::dispersion::{arrival_time, disperse, Ending};
use crate::metering::discharge_volumes;
use crate::record::{decode, Record, ACCESS, CYCLE_MOST, LEFT, RIGHT, THROUGH};
use crate::refusal::{self, Refusal};

/// What an accepted working returns.
#[derive(Clone, Copy, Debug, PartialEq)]
pub struct Working {
    /// Platoon arrival time (paper: t').
    pub shift: u32,
    pub rounds: u32,
    pub last_sum: f64,
    pub flows: PairFlows,
    pub exits: [ExitFigures; 3],
    pub access_total: u64,
    pub blocked: u32,
}

/// A refusal by number; 15 comes with the last sum, the others with 0.
#[derive(Clone, Copy, Debug, PartialEq)]
pub struct Refused {
    pub number: Refusal,
    pub last_sum: f64,
}

impl From<Refusal> for Refused {
    fn from(number: Refusal) -> Refused {
        Refused {
            number,
            last_sum: 0.0,
        }
    }
}

/// Everything decided before a profile is written.
pub(crate) struct Decision {
    pub(crate) volumes: [u32; 4],
    rounds: u32,
    last_sum: f64,
    flows: PairFlows,
}

/// Refusal 16 of the profiles that every working is lent.
pub(crate) fn check_lengths(
    record: &Record,
    output: &[u32],
    first: &[u32],
    second: &[u32],
) -> Result<(), Refusal> {
    let cycle = record.cycle as usize;
    if output.len() < 4 * cycle || first.len() < cycle || second.len() < cycle {
        return Err(refusal::PROFILE);
    }
    Ok(())
}

/// Refusals 13 to 15, or what is to be written.
pub(crate) fn decide(record: &Record) -> Result<Decision, Refused> {
    let volumes = discharge_volumes(record);
    check_volumes(&volumes, &record.exits, &record.seeds)?;
    let balanced = balance(&volumes, &record.exits, &record.seeds, ROUND_LIMIT);
    match balanced.outcome {
        Outcome::Unsettled(last_sum) => Err(Refused {
            number: refusal::UNSETTLED,
            last_sum,
        }),
        Outcome::Settled(last_sum) => Ok(Decision {
            volumes,
            rounds: balanced.rounds,
            last_sum,
            flows: pair_flows(&volumes, &balanced.cells),
        }),
    }
}

/// Fills the runs of the output, exits in order; all three profiles cut to size.
/// Each entry's discharge is made once and shown to `see_discharge`.
fn fill(
    record: &Record,
    decision: &Decision,
    ending: Ending,
    output: &mut [u32],
    first: &mut [u32],
    second: &mut [u32],
    mut see_discharge: impl FnMut(&[u32]),
) {
    let cycle = record.cycle as usize;
    let shift = arrival_time(record.running_time);
    fill_access(&decision.flows[ACCESS], cycle, output);
    let mut leaving = [0; CYCLE_MOST as usize];
    let leaving = &mut leaving[..cycle];
    for (i, entry) in record.entries.iter().enumerate() {
        fill_discharge(entry, leaving);
        see_discharge(leaving);
        let arrivals = disperse(leaving, record.running_time, ending, first, second);
        let (flows, volume) = (&decision.flows[i], decision.volumes[i]);
        add_entry(arrivals, flows, volume, shift, output);
    }
}

/// Fills the run of each exit with its flow from access, the same in every step.
fn fill_access(flows: &[u32; 4], cycle: usize, output: &mut [u32]) {
    for (run, &flow) in output.chunks_exact_mut(cycle).zip(flows) {
        run.fill(flow);
    }
}

/// Adds one entry's arrivals to the run of each exit, shared by its pair flows.
fn add_entry(arrivals: &[u32], flows: &[u32; 4], volume: u32, shift: u32, output: &mut [u32]) {
    for (run, &flow) in output.chunks_exact_mut(arrivals.len()).zip(flows) {
        add_pair(arrivals, flow, volume, shift, run);
    }
}

/// Works a record; a refusal writes nothing.
pub fn work(
    bytes: &[u8],
    output: &mut [u32],
    first: &mut [u32],
    second: &mut [u32],
) -> Result<Working, Refused> {
    work_ending(bytes, Ending::AllCycles, output, first, second)
}

/// As `work`, with a choice of how many cycles are worked.
pub fn work_ending(
    bytes: &[u8],
    ending: Ending,
    output: &mut [u32],
    first: &mut [u32],
    second: &mut [u32],
) -> Result<Working, Refused> {
    let (record, decision) = accept(bytes, output, first, second)?;
    Ok(write_unseen(
        &record, &decision, ending, output, first, second,
    ))
}

/// All refusals of the working in order, or the record and what is to be written.
pub(crate) fn accept(
    bytes: &[u8],
    output: &[u32],
    first: &[u32],
    second: &[u32],
) -> Result<(Record, Decision), Refused> {
    let record = decode(bytes)?;
    check_lengths(&record, output, first, second)?;
    let decision = decide(&record)?;
    Ok((record, decision))
}

/// As `write`, where nobody asks for the discharge.
pub(crate) fn write_unseen(
    record: &Record,
    decision: &Decision,
    ending: Ending,
    output: &mut [u32],
    first: &mut [u32],
    second: &mut [u32],
) -> Working {
    write(record, decision, ending, output, first, second, |_| ())
}

/// Writes what was decided and gives the figures; `see_discharge` is shown each entry's discharge in turn.
pub(crate) fn write(
    record: &Record,
    decision: &Decision,
    ending: Ending,
    output: &mut [u32],
    first: &mut [u32],
    second: &mut [u32],
    see_discharge: impl FnMut(&[u32]),
) -> Working {
    let cycle = record.cycle as usize;
    let output = &mut output[..4 * cycle];
    let (first, second) = (&mut first[..cycle], &mut second[..cycle]);
    fill(
        record,
        decision,
        ending,
        output,
        first,
        second,
        see_discharge,
    );
    figures(record, decision, output)
}

fn figures(record: &Record, decision: &Decision, output: &[u32]) -> Working {
    let cycle = record.cycle as usize;
    let run = |j: usize| &output[j * cycle..(j + 1) * cycle];
    Working {
        shift: arrival_time(record.running_time),
        rounds: decision.rounds,
        last_sum: decision.last_sum,
        flows: decision.flows,
        exits: [LEFT, THROUGH, RIGHT].map(|j| exit_figures(run(j), record.downstream[j])),
        access_total: total(run(ACCESS)),
        blocked: blocked_steps(run(THROUGH), record.headway),
    }
}
