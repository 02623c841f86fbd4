//! Random workings beside the exact flows in whole numbers: demand 3 and the repeating flow.

use std::ops::RangeInclusive;

use reference::accuracy::{check_balance, check_working, Worked};
use reference::arrivals::add_pair;
use reference::discharge::discharge;
use reference::dispersion::{disperse_cycles, Ending, Link, CYCLES};
use reference::exact::Exact;
use reference::random::Random;
use reference::record::{decode, RUNNING_TIME_AT};
use reference::samples::{busy, put_u32, random_street, RecordBytes};
use reference::vectors::rest::late_to_rest;
use reference::working::{work, Working};

const REPEATING: &[Exact] = &[Exact::Repeating];
const BOTH: &[Exact] = &[Exact::FromEmpty, Exact::Repeating];

struct Run {
    bytes: RecordBytes,
    working: Working,
    output: Vec<u32>,
    first: Vec<u32>,
    second: Vec<u32>,
}

/// The working of a record with longer profiles, if it is accepted.
fn run(record: &RecordBytes, cycle: u32) -> Option<Run> {
    let steps = cycle as usize;
    let mut output = vec![3; 4 * steps + 2];
    let (mut first, mut second) = (vec![1; steps + 1], vec![2; steps]);
    let working = work(record, &mut output, &mut first, &mut second).ok()?;
    assert_eq!((output[4 * steps], first[steps]), (3, 1));
    Some(Run {
        bytes: *record,
        working,
        output,
        first,
        second,
    })
}

impl Run {
    fn check(&self, exacts: &[Exact]) -> Result<(), String> {
        let record = decode(&self.bytes).unwrap();
        let worked = Worked {
            record: &record,
            working: &self.working,
            output: &self.output,
            first: &self.first,
            second: &self.second,
        };
        check_working(&worked, exacts)
    }

    /// What the check says with both exact flows.
    fn fault(&self) -> String {
        self.check(BOTH).unwrap_err()
    }
}

/// Checks `count` accepted records of these cycles; all steps of each.
fn check_random(
    seed: u64,
    count: u32,
    cycles: RangeInclusive<u32>,
    running_time: Option<u32>,
    exacts: &[Exact],
) {
    let mut random = Random::new(seed);
    let mut checked = 0;
    while checked < count {
        let cycle = random.between(*cycles.start(), *cycles.end());
        let record = random_street(&mut random, cycle, running_time);
        if let Some(run) = run(&record, cycle) {
            assert_eq!(run.check(exacts), Ok(()), "{record:?}");
            checked += 1;
        }
    }
}

#[test]
fn short_cycles() {
    check_random(41, 1500, 30..=60, None, REPEATING);
    check_random(44, 500, 30..=30, Some(300_000), REPEATING);
}

#[test]
fn long_cycles() {
    check_random(42, 100, 61..=240, None, REPEATING);
    check_random(43, 100, 240..=240, Some(300_000), REPEATING);
}

/// The numbers of 65 cycles from empty are long, so the records are fewer.
#[test]
fn from_empty_in_short_cycles() {
    check_random(45, 300, 30..=45, None, BOTH);
    check_random(46, 150, 30..=30, Some(300_000), BOTH);
}

#[test]
fn from_empty_in_long_cycles() {
    check_random(47, 30, 46..=120, None, BOTH);
    check_random(48, 4, 121..=239, None, BOTH);
    check_random(49, 4, 240..=240, Some(300_000), BOTH);
}

/// The check can fail: flows moved from step to step, a flow added, a work profile changed.
#[test]
fn the_check_can_fail() {
    let good = || run(&busy(30), 30).unwrap();
    assert_eq!(good().check(BOTH), Ok(()));
    for step in [0, 28, 30, 118] {
        let mut run = good();
        run.output[step] += 18;
        run.output[step + 1] -= 18;
        assert!(run.fault().contains("is 6 or more off the flow from empty"));
        let repeating = run.check(REPEATING).unwrap_err();
        assert!(repeating.contains("is 9 or more off the repeating flow"));
    }
    let mut run = good();
    run.output[119] += 1;
    assert!(run.fault().contains("does not hold its pairs"));
    let mut run = good();
    run.first[29] += 1;
    assert_eq!(run.fault(), "cycle 65 is not in its work profile");
    let mut run = good();
    run.second[0] += 1;
    assert_eq!(run.fault(), "cycle 64 is not in its work profile");
}

/// What the check says of a flow moved at one place of the output.
fn moved(at: usize, by: i32) -> String {
    let mut run = run(&busy(30), 30).unwrap();
    run.output[at] = run.output[at].checked_add_signed(by).unwrap();
    run.check(REPEATING).unwrap_err()
}

/// Seven is a distance of its own: eight up or down is too far at every place, and not everywhere nine.
#[test]
fn seven_can_fail() {
    let mut seven = 0;
    for at in 0..120 {
        let texts = [8, -8].map(|by| moved(at, by));
        let off = |part: &str| texts.iter().filter(|text| text.contains(part)).count();
        assert!(off("or more off the repeating flow") > 0, "{at}");
        seven += off("is 7 or more off");
    }
    assert!(seven > 0);
}

/// Where the last two cycles differ, exchanged work profiles are seen, and one cycle in both.
#[test]
fn exchanged_work_profiles_fail() {
    for record in late_to_rest() {
        let mut run = run(&record, 30).unwrap();
        assert_eq!(run.check(BOTH), Ok(()));
        let (last, before) = (run.first.clone(), run.second.clone());
        for (first, second, cycle) in [
            (&before, &last, 65),
            (&before, &before, 65),
            (&last, &last, 64),
        ] {
            (run.first, run.second) = (first.clone(), second.clone());
            let text = format!("cycle {cycle} is not in its work profile");
            assert_eq!(run.fault(), text);
        }
    }
}

/// Two flow units more or less anywhere in 65 cycles are seen in the balance, in the last step one; so is a cycle left out.
#[test]
fn the_balance_can_fail() {
    let leaving: Vec<u32> = (0..30).map(|step| 400_000 * (step % 7)).collect();
    let mut link = Link::empty(1000);
    let all = leaving.iter().cycle().take(CYCLES * 30);
    let arrivals: Vec<u32> = all.map(|&q| link.step(q)).collect();
    let check = |arrivals: &[u32]| check_balance(&leaving, arrivals, 1000);
    assert_eq!(check(&arrivals), Ok(()));
    for (at, by) in [(1, 2), (900, 2), (64 * 30, 2), (64 * 30 + 29, 1)] {
        for changed in [arrivals[at] + by, arrivals[at] - by] {
            let mut arrivals = arrivals.clone();
            arrivals[at] = changed;
            assert!(check(&arrivals).is_err(), "{at}");
        }
    }
    let mut skipped = arrivals.clone();
    skipped[..30].fill(0);
    assert!(check(&skipped).is_err());
}

/// The output of a run as so many cycles from empty leave it.
fn after_cycles(run: &Run, cycles: usize) -> Vec<u32> {
    let record = decode(&run.bytes).unwrap();
    let steps = record.cycle as usize;
    let mut leaving = vec![0; 3 * steps];
    let volumes = discharge(&run.bytes, &mut leaving).unwrap();
    let (mut first, mut second) = (vec![0; steps], vec![0; steps]);
    let [.., access] = run.working.flows;
    let mut output: Vec<u32> = access.iter().flat_map(|&v| vec![v; steps]).collect();
    for (i, entry) in leaving.chunks_exact(steps).enumerate() {
        let (time, all) = (record.running_time, Ending::AllCycles);
        let arrivals = disperse_cycles(entry, time, cycles, all, &mut first, &mut second);
        for (exit, &flow) in output.chunks_exact_mut(steps).zip(&run.working.flows[i]) {
            add_pair(arrivals, flow, volumes[i], run.working.shift, exit);
        }
    }
    output
}

/// On a long street two cycles from empty are not near to either exact flow.
#[test]
fn two_cycles_fail_on_a_long_street() {
    let mut record = busy(30);
    put_u32(&mut record, RUNNING_TIME_AT, 300_000);
    let mut run = run(&record, 30).unwrap();
    assert_eq!(after_cycles(&run, CYCLES), run.output[..120]);
    run.output = after_cycles(&run, 2);
    assert!(run.fault().contains("is 6 or more off the flow from empty"));
    let repeating = run.check(REPEATING).unwrap_err();
    assert!(repeating.contains("is 9 or more off the repeating flow"));
}

/// Handing the discharge on undispersed fails by both exact flows.
#[test]
fn undispersed_fails() {
    let mut run = run(&busy(30), 30).unwrap();
    let mut leaving = [0; 90];
    discharge(&run.bytes, &mut leaving).unwrap();
    let flows = run.working.flows;
    for (n, place) in run.output[..120].iter_mut().enumerate() {
        let (j, step) = (n / 30, (n % 30 + 60 - 34) % 30);
        let whole = |i: usize| flows[i].iter().map(|&v| u64::from(v)).sum::<u64>();
        let pair = |i: usize| u64::from(leaving[30 * i + step]) * u64::from(flows[i][j]) / whole(i);
        *place = flows[3][j] + (0..3).map(pair).sum::<u64>() as u32;
    }
    assert!(run.fault().contains("off the flow from empty"));
    let repeating = run.check(REPEATING).unwrap_err();
    assert!(repeating.contains("off the repeating flow"));
}
