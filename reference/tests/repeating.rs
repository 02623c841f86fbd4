//! The repeating flow is what it should be, in whole numbers, and the working's numbers are near to it.

use reference::arrivals::PairShare;
use reference::discharge::entry_discharge;
use reference::dispersion::{denominator, disperse, Ending, CYCLES, NUMERATOR};
use reference::exact::{from_empty, repeating, ExactArrivals};
use reference::metering::discharge_volume;
use reference::natural::Natural;
use reference::random::Random;
use reference::record::decode;
use reference::samples::random_record;

/// The discharges of a random record's entries with their volumes.
fn random_discharges(random: &mut Random, cycle: u32) -> Vec<(Vec<u32>, u32)> {
    let record = decode(&random_record(random, cycle)).unwrap();
    let discharge = |entry| {
        (
            entry_discharge(entry, cycle),
            discharge_volume(entry, cycle),
        )
    };
    record.entries.iter().map(discharge).collect()
}

/// D·y = N·q + (D-N)·y' for each entry, y' being that of the step before; the last step stands before the first.
fn repeats(flow: &[ExactArrivals], discharges: &[&[u32]], running_time: u32) -> bool {
    let divisor = denominator(running_time);
    let satisfies = |k: usize, i: usize| {
        let (now, before) = (&flow[k], &flow[(k + flow.len() - 1) % flow.len()]);
        let mut factors = vec![0; discharges.len()];
        factors[i] = divisor - NUMERATOR;
        let made = before.flow(&factors, NUMERATOR * u64::from(discharges[i][k]));
        let due = now.numerators[i].times(divisor);
        due.product(&before.over) == made.product(&now.over)
    };
    (0..flow.len()).all(|k| (0..discharges.len()).all(|i| satisfies(k, i)))
}

/// The repeating flow with D^C in place of W.
fn other_weight(discharges: &[&[u32]], running_time: u32) -> Vec<ExactArrivals> {
    let mut flow = from_empty(discharges, running_time, 1);
    let end = flow[flow.len() - 1].clone();
    let mut power = Natural::one();
    for now in &mut flow {
        power.multiply(denominator(running_time) - NUMERATOR);
        for (x, xc) in now.numerators.iter_mut().zip(&end.numerators) {
            *x = x.product(&end.over).plus(&power.product(xc));
        }
        now.over = now.over.product(&end.over);
    }
    flow
}

fn check_recurrence(random: &mut Random, cycle: u32, running_time: u32) {
    let entries = random_discharges(random, cycle);
    let discharges: Vec<&[u32]> = entries.iter().map(|(q, _)| &q[..]).collect();
    let repeats = |flow: &[ExactArrivals]| repeats(flow, &discharges, running_time);
    assert!(repeats(&repeating(&discharges, running_time)));
    if entries.iter().any(|(_, volume)| *volume > 0) {
        // from empty nothing repeats exactly, nor does it with another weight
        assert!(!repeats(&from_empty(&discharges, running_time, 1)));
        assert!(!repeats(&other_weight(&discharges, running_time)));
    }
}

#[test]
fn the_recurrence_around_the_cycle() {
    let mut random = Random::new(81);
    for _ in 0..300 {
        let (cycle, running_time) = (random.with_ends(30, 60), random.with_ends(1000, 300_000));
        check_recurrence(&mut random, cycle, running_time);
    }
    for cycle in [90, 120, 240] {
        check_recurrence(&mut random, cycle, 300_000);
        check_recurrence(&mut random, cycle, 1000);
    }
}

/// Any discharge repeats, also one that no entry has.
#[test]
fn the_recurrence_of_any_discharge() {
    let mut random = Random::new(82);
    for _ in 0..100 {
        let cycle = random.with_ends(30, 60) as usize;
        let leaving: Vec<u32> = (0..cycle).map(|_| random.draw() as u32).collect();
        let running_time = random.with_ends(1000, 300_000);
        let flow = repeating(&[&leaving], running_time);
        assert!(repeats(&flow, &[&leaving], running_time));
    }
}

/// One entry's reported arrivals.
fn reported(leaving: &[u32], running_time: u32) -> Vec<u32> {
    let (mut first, mut second) = (leaving.to_vec(), leaving.to_vec());
    let all = Ending::AllCycles;
    disperse(leaving, running_time, all, &mut first, &mut second).to_vec()
}

/// Every step of one entry's flow, times a factor, is nearer than the distance to what was found.
fn near(found: &[u32], flow: &[ExactArrivals], factor: u64, distance: u64) -> bool {
    let near = |(&found, exact): (&u32, &ExactArrivals)| {
        exact.within(distance, found, &exact.flow(&[factor], 0))
    };
    found.iter().zip(flow).all(near)
}

/// One entry within two, and a pair with a random share of it within three.
fn check_near(random: &mut Random, leaving: &[u32], volume: u32, running_time: u32) {
    let arrivals = reported(leaving, running_time);
    let flow = repeating(&[leaving], running_time);
    assert!(near(&arrivals, &flow, 1, 2));
    let pair = random.with_ends(0, volume);
    let mut share = PairShare::new(pair, volume);
    let shared: Vec<u32> = arrivals.iter().map(|&a| share.take(a)).collect();
    let whole = u64::from(volume);
    let flow: Vec<ExactArrivals> = flow.into_iter().map(|y| y.divided(&[whole])).collect();
    assert!(near(&shared, &flow, u64::from(pair), 3));
}

#[test]
fn entries_and_pairs_are_near() {
    let mut random = Random::new(83);
    for n in 0..600 {
        let cycle = random.with_ends(30, 60);
        let running_time = match n % 3 {
            0 => 300_000,
            _ => random.with_ends(1000, 300_000),
        };
        let entries = random_discharges(&mut random, cycle);
        for (leaving, volume) in entries.iter().filter(|(_, volume)| *volume > 0) {
            check_near(&mut random, leaving, *volume, running_time);
        }
    }
}

/// One entry's discharge, saturated for some steps, and none in the others.
fn saturated(cycle: usize, steps: usize) -> Vec<u32> {
    let mut leaving = vec![0; cycle];
    leaving[cycle - steps..].fill(12_000_000);
    leaving
}

/// The distance of two can fail: without the share of XC, with another weight, a step late, one flow moved.
#[test]
fn nearness_can_fail() {
    let leaving = &saturated(30, 12)[..];
    let arrivals = reported(leaving, 300_000);
    let flow = repeating(&[leaving], 300_000);
    assert!(near(&arrivals, &flow, 1, 2));
    assert!(!near(&arrivals, &from_empty(&[leaving], 300_000, 1), 1, 9));
    assert!(!near(&arrivals, &from_empty(&[leaving], 300_000, 2), 1, 9));
    assert!(!near(&arrivals, &other_weight(&[leaving], 300_000), 1, 9));
    assert!(!near(&arrivals[1..], &flow, 1, 9));
    for step in 0..30 {
        for moved in [arrivals[step] + 3, arrivals[step] - 3] {
            let mut arrivals = arrivals.clone();
            arrivals[step] = moved;
            assert!(!near(&arrivals, &flow, 1, 2));
        }
    }
}

/// After so many cycles before the reported one the flow from empty is below the repeating one, by at most 2^-21.
fn little_left(leaving: &[u32], running_time: u32, cycles: usize) -> bool {
    let repeating = repeating(&[leaving], running_time);
    let from_empty = from_empty(&[leaving], running_time, cycles + 1);
    repeating.iter().zip(&from_empty).all(|(y, x)| {
        let (high, low) = (
            y.numerators[0].product(&x.over),
            x.numerators[0].product(&y.over),
        );
        let over = y.over.product(&x.over);
        low <= high && high.minus(&low).times(1 << 21) <= over
    })
}

#[test]
fn little_is_left_after_64_cycles() {
    let mut random = Random::new(84);
    for _ in 0..40 {
        let cycle = random.with_ends(30, 40);
        let running_time = random.with_ends(1000, 300_000);
        for (leaving, _) in random_discharges(&mut random, cycle) {
            assert!(little_left(&leaving, running_time, CYCLES - 1));
        }
    }
    // the most that can be left: the shortest cycle, the longest street, the largest flow
    let fullest = saturated(30, 30);
    assert!(little_left(&fullest, 300_000, CYCLES - 1));
    assert!(!little_left(&fullest, 300_000, 30));
    assert!(little_left(&saturated(120, 40), 300_000, CYCLES - 1));
}
