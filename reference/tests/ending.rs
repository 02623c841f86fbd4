//! The cycles that only repeat may be left out: every number stays.

use reference::dispersion::{cycles_to_rest, disperse, disperse_cycles, Ending, Link, CYCLES};
use reference::points::{work_points, work_points_ending, Points};
use reference::random::Random;
use reference::record::{read_u32, RUNNING_TIME_AT};
use reference::samples::{good_points, random_points, random_street, RecordBytes};
use reference::vectors::rest::late_to_rest;
use reference::working::{work, work_ending};

/// Output, point profiles, first and second work profile, with room beyond.
fn profiles(cycle: usize) -> [Vec<u32>; 4] {
    [4 * cycle, 8 * cycle, cycle, cycle].map(|length| (7..).take(length + 3).collect())
}

/// Works a record in both ways; true where it is accepted.
fn same_working(record: &RecordBytes, cycle: usize) -> bool {
    let (mut plain, mut early) = (profiles(cycle), profiles(cycle));
    let [output, _, first, second] = &mut plain;
    let all = work(record, output, first, second);
    let [output, _, first, second] = &mut early;
    let at_rest = work_ending(record, Ending::AtRest, output, first, second);
    assert_eq!((all, plain), (at_rest, early), "{record:?}");
    all.is_ok()
}

fn same_points(record: &RecordBytes, points: &Points, cycle: usize) -> bool {
    let (mut plain, mut early) = (profiles(cycle), profiles(cycle));
    let [output, passing, first, second] = &mut plain;
    let all = work_points(record, points, output, passing, first, second);
    let [output, passing, first, second] = &mut early;
    let ending = Ending::AtRest;
    let at_rest = work_points_ending(record, points, ending, output, passing, first, second);
    assert_eq!((all, plain), (at_rest, early), "{record:?} {points:?}");
    all.is_ok()
}

fn running_time(record: &RecordBytes) -> u32 {
    read_u32(record, RUNNING_TIME_AT)
}

/// Random records of any cycle and street, one in four of 30 steps and 300 s.
fn sample(random: &mut Random, n: u32) -> (RecordBytes, usize) {
    let (cycle, running_time) = match n % 4 {
        0 => (30, Some(300_000)),
        _ => (random.with_ends(30, 240), None),
    };
    let record = random_street(random, cycle, running_time);
    (record, cycle as usize)
}

#[test]
fn the_same_working() {
    let mut random = Random::new(101);
    let accepted = (0..4000)
        .filter(|&n| {
            let (record, cycle) = sample(&mut random, n);
            same_working(&record, cycle)
        })
        .count();
    assert!(accepted > 1000, "{accepted}");
}

/// Links that come to rest in the last cycle, or in the one before.
#[test]
fn the_same_at_the_last() {
    let mut random = Random::new(106);
    for record in late_to_rest() {
        assert!(same_working(&record, 30));
        let time = running_time(&record);
        let mut points = good_points(&mut random, 8, time);
        points.at[0].running = time;
        assert!(same_points(&record, &points, 30));
    }
}

#[test]
fn the_same_at_the_points() {
    let mut random = Random::new(102);
    let accepted = (0..1500)
        .filter(|&n| {
            let (record, cycle) = sample(&mut random, n);
            let points = random_points(&mut random, running_time(&record));
            same_points(&record, &points, cycle)
        })
        .count();
    assert!(accepted > 300, "{accepted}");
}

/// A random discharge of 30 steps: one green with much volume, past the end of the cycle or not.
fn random_discharge(random: &mut Random) -> Vec<u32> {
    let mut leaving = vec![0; 30];
    let (start, length) = (random.below(30), random.between(1, 30));
    let flow = random.between(1, 12_000_000);
    for step in start..start + length {
        leaving[step as usize % 30] = flow;
    }
    leaving
}

/// The part that is handed back: 1 or 2, for the first or the second work profile.
fn dispersed(leaving: &[u32], time: u32, cycles: usize, ending: Ending) -> (usize, [Vec<u32>; 2]) {
    let (mut first, mut second) = (vec![8; 30], vec![9; 30]);
    let start = first.as_ptr();
    let part = disperse_cycles(leaving, time, cycles, ending, &mut first, &mut second);
    let part = if part.as_ptr() == start { 1 } else { 2 };
    (part, [first, second])
}

/// Any number of cycles, ending before the link is at rest, as it comes to rest and after.
#[test]
fn any_number_of_cycles() {
    let mut random = Random::new(103);
    for n in 0..60 {
        let (leaving, time) = match n {
            0..=2 => (nearly_steady(40 + n), 300_000),
            _ => (
                random_discharge(&mut random),
                random.pick(&[1000, 20_000, 100_000, 300_000]),
            ),
        };
        for cycles in 1..=CYCLES {
            let plain = dispersed(&leaving, time, cycles, Ending::AllCycles);
            assert_eq!(plain, dispersed(&leaving, time, cycles, Ending::AtRest));
            assert_eq!(plain.0, 2 - cycles % 2);
        }
    }
}

/// The arrivals of one cycle, those before it worked plainly.
fn arrivals(leaving: &[u32], time: u32, cycle: usize) -> Vec<u32> {
    let (part, profiles) = dispersed(leaving, time, cycle, Ending::AllCycles);
    profiles[part - 1].clone()
}

/// The first cycle that all later ones repeat.
fn first_repeated(leaving: &[u32], time: u32) -> usize {
    let last = arrivals(leaving, time, CYCLES);
    let same = |&cycle: &usize| arrivals(leaving, time, cycle) == last;
    (1..=CYCLES).rev().take_while(same).last().unwrap()
}

/// The early end comes right after that cycle, or one later: its arrivals may repeat though it began in another state.
#[test]
fn cycles_worked_to_rest() {
    let mut random = Random::new(104);
    for time in [1000, 20_000, 100_000, 300_000] {
        for _ in 0..20 {
            let leaving = random_discharge(&mut random);
            let first = first_repeated(&leaving, time);
            let worked = cycles_to_rest(&leaving, time);
            assert!(
                (first + 1..=first + 2).contains(&worked),
                "{first} {worked}"
            );
        }
    }
    assert_eq!(cycles_to_rest(&[0; 30], 300_000), 2);
}

/// Nearly steady: the link gains one flow unit a cycle, until an arrival changes in the 65th cycle, or for a dip of 42 in the 66th.
fn nearly_steady(dip: u32) -> Vec<u32> {
    let mut leaving = vec![6_000_000; 30];
    leaving[0] -= dip;
    leaving[1] += dip;
    leaving
}

/// The link of a point is that before the 65th cycle, not before another.
#[test]
fn sixty_four_cycles_before_the_last() {
    for (dip, changed) in [(41, 65), (42, 66)] {
        let leaving = nearly_steady(dip);
        let cycle = |cycle| arrivals(&leaving, 300_000, cycle);
        assert_ne!(cycle(changed), cycle(changed - 1));
        for ending in [Ending::AllCycles, Ending::AtRest] {
            let mut link = Link::before_last(&leaving, 300_000, ending);
            let last: Vec<u32> = leaving.iter().map(|&q| link.step(q)).collect();
            assert_eq!(last, cycle(65));
        }
    }
}

/// Cycle 65 is in the first work profile and handed back, cycle 64, which is another, in the second.
#[test]
fn the_first_work_profile_is_handed_back() {
    let leaving = nearly_steady(41);
    let [before, last] = [64, 65].map(|cycle| arrivals(&leaving, 300_000, cycle));
    for ending in [Ending::AllCycles, Ending::AtRest] {
        let (mut first, mut second) = (vec![8; 30], vec![9; 30]);
        let start = first.as_ptr();
        let part = disperse(&leaving, 300_000, ending, &mut first, &mut second);
        assert_eq!(part.as_ptr(), start);
        assert_eq!((&first, &second), (&last, &before));
    }
    assert_ne!(last, before);
}
