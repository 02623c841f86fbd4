//! Vectors of the balance.

use super::balance_cases::{Inputs, BY_ROUNDS, BY_STOP};
use super::metered::{due_exits, metered_inputs};
use super::metered_cases::BY_ORDER;
use super::orders::{flows, Order, OTHER_ORDERS};
use super::{product, Body, File};
use crate::balance::{balance, check_volumes, pair_flows, Balance, Outcome, ROUND_LIMIT};
use crate::metering::UNITS;
use crate::random::Random;
use crate::record::{Seeds, ACCESS, DEFAULT_SEEDS, THROUGH};
use crate::refusal::{Refusal, UNSETTLED};
use crate::samples::random_row;
use std::iter::repeat_with;

const SEED: u64 = 0x0101_ba1a;
/// Cases kept for each other order of operations.
const KEPT_OF_ORDER: usize = 12;

/// Some discharge everywhere: whole vehicles an hour or not, and less than one.
const DISCHARGE: [u32; 4] = [10_000, 20_142, 30, 40_000];
/// Some exit volume everywhere.
const EXITS: [u32; 4] = [10, 20, 30, 40];

const SETTLED: u32 = 1;
const UNSETTLED_OUTCOME: u32 = 0;
const NOT_RUN: u32 = 2;

pub fn file() -> File {
    let mut file = File::default();
    add_figures(&mut file);
    add_no_volume(&mut file);
    add_unserved(&mut file);
    add_rare(&mut file);
    add_metered(&mut file);
    add_extremes(&mut file);
    add_random(&mut file);
    let discharge = [200_000, 700_000, 150_000, 120_000];
    let wrong = (discharge, [150, 800, 200, 20], DEFAULT_SEEDS);
    file.push("wrong".into(), case(&wrong, 1).1);
    file
}

/// The number of refusal, 0 where settled, and the balance where it is run.
fn run((discharge, exits, seeds): &Inputs) -> (Refusal, Option<Balance>) {
    if let Err(number) = check_volumes(discharge, exits, seeds) {
        return (number, None);
    }
    let balance = balance(discharge, exits, seeds, ROUND_LIMIT);
    match balance.outcome {
        Outcome::Settled(_) => (0, Some(balance)),
        Outcome::Unsettled(_) => (UNSETTLED, Some(balance)),
    }
}

/// A case; `off` is added to the last pair flow.
fn case(inputs: &Inputs, off: u32) -> (u32, Body) {
    let (discharge, exits, seeds) = inputs;
    let (number, balance) = run(inputs);
    let (outcome, last_sum) = match balance.map(|balance| balance.outcome) {
        Some(Outcome::Settled(sum)) => (SETTLED, sum),
        Some(Outcome::Unsettled(sum)) => (UNSETTLED_OUTCOME, sum),
        None => (NOT_RUN, 0.0),
    };
    let cells = balance.map_or([[0.0; 4]; 4], |balance| balance.cells);
    let mut flows = if number == 0 {
        pair_flows(discharge, &cells)
    } else {
        [[0; 4]; 4]
    };
    flows[ACCESS][ACCESS] += off;
    let mut body = Body::default();
    body.words(discharge);
    body.words(exits);
    body.bytes(&seeds.concat());
    body.word(number);
    body.word(outcome);
    body.word(balance.map_or(0, |balance| balance.rounds));
    body.bits(last_sum);
    for cell in cells.concat() {
        body.bits(cell);
    }
    body.words(&flows.concat());
    (number, body)
}

fn add(file: &mut File, inputs: &Inputs) {
    assert!(inputs
        .2
        .iter()
        .all(|row| row.iter().map(|&s| u32::from(s)).sum::<u32>() == 100));
    let (number, body) = case(inputs, 0);
    file.push(format!("{number}"), body);
}

/// Balances of rare rounds, of early stops, and that tell orders of operations apart.
fn add_rare(file: &mut File) {
    let by_rounds = BY_ROUNDS.iter().map(|(_, inputs)| *inputs);
    let by_stop = BY_STOP.iter().map(|(_, _, inputs)| *inputs);
    let by_order = order_cases().into_iter().map(|(_, inputs)| inputs);
    for inputs in by_rounds.chain(by_stop).chain(by_order) {
        add(file, &inputs);
    }
}

/// Metered records' discharge volumes, which tell the orders on their thousandths apart.
fn add_metered(file: &mut File) {
    for (_, metered) in BY_ORDER {
        add(file, &metered_inputs(metered));
    }
}

/// The paper's figures.
fn add_figures(file: &mut File) {
    for (discharge, exits) in [
        ([0, 10, 0, 90], [0, 10, 0, 90]),
        ([0, 0, 0, 90], [0, 0, 0, 90]),
        ([0, 0, 0, 360], [0, 360, 0, 0]),
    ] {
        add(file, &(discharge.map(|v| UNITS * v), exits, DEFAULT_SEEDS));
    }
}

/// 13 by each side and by both, also where 14 applies.
fn add_no_volume(file: &mut File) {
    let none = [0; 4];
    for (discharge, exits) in [(none, EXITS), (DISCHARGE, none), (none, none)] {
        add(file, &(discharge, exits, DEFAULT_SEEDS));
        add(file, &(discharge, exits, [[0, 0, 0, 100]; 4]));
    }
    // the least discharge is one
    for least in [[4, 0, 0, 0], [0, 4, 0, 0], [0, 0, 4, 0]] {
        add(file, &(least, EXITS, DEFAULT_SEEDS));
    }
}

/// 14 by each entry and each exit, and the same seeds where it has no volume.
fn add_unserved(file: &mut File) {
    for n in 0..4 {
        let next = (n + 1) % 4;
        let (no_entry, no_exit) = (without(n, DISCHARGE), without(n, EXITS));
        let no_next = without(next, EXITS);
        add(file, &(DISCHARGE, no_next, only_to(n, next)));
        add(file, &(no_entry, no_next, only_to(n, next)));
        add(file, &(DISCHARGE, EXITS, unserved_exit(n)));
        add(file, &(DISCHARGE, no_exit, unserved_exit(n)));
        add(file, &(no_entry, EXITS, only_from(n, next)));
        add(file, &(DISCHARGE, EXITS, only_from(n, next)));
    }
}

/// The volumes, but none at this entry or exit.
fn without(at: usize, mut volumes: [u32; 4]) -> [u32; 4] {
    volumes[at] = 0;
    volumes
}

/// The entry has seeds for one exit only.
fn only_to(entry: usize, exit: usize) -> Seeds {
    let mut seeds = [[25; 4]; 4];
    seeds[entry] = [0; 4];
    seeds[entry][exit] = 100;
    seeds
}

/// Only the entry has a seed for the exit.
fn only_from(entry: usize, exit: usize) -> Seeds {
    let mut seeds = unserved_exit(exit);
    seeds[entry] = [25; 4];
    seeds
}

/// No entry has a seed for this exit.
fn unserved_exit(exit: usize) -> Seeds {
    let mut seeds = [[25; 4]; 4];
    for row in &mut seeds {
        row[exit] = 0;
        row[(exit + 1) % 4] = 50;
    }
    seeds
}

/// The least and the most that a record can hold.
fn add_extremes(file: &mut File) {
    let volumes = [
        [6_000_000; 4],
        [1000; 4],
        [6_000_000, 1000, 1000, 6_000_000],
        [1000, 6_000_000, 6_000_000, 1000],
        [0, 6_000_000, 0, 0],
        // metered: the least, under one vehicle an hour, the most
        [4, 995, 33, 0],
        [5_999_995, 4, 5_999_975, 6_000_000],
    ];
    let exits = [
        [12000; 4],
        [1; 4],
        [12000, 1, 1, 12000],
        [1, 12000, 12000, 0],
        [0, 12000, 0, 0],
    ];
    let seeds = [
        DEFAULT_SEEDS,
        [[25; 4]; 4],
        [[100, 0, 0, 0]; 4],
        [[0, 100, 0, 0]; 4],
        [[1, 97, 1, 1]; 4],
        [[97, 1, 1, 1]; 4],
        [[0, 50, 50, 0]; 4],
    ];
    for ((discharge, exits), seeds) in product(&product(&volumes, &exits), &seeds) {
        add(file, &(discharge, exits, seeds));
    }
}

/// Cases where another order of operations gives other pair flows.
pub fn order_cases() -> Vec<(Order, Inputs)> {
    let mut random = Random::new(SEED);
    let mut cases = Vec::new();
    for order in OTHER_ORDERS {
        let told_apart = repeat_with(|| exact_inputs(&mut random))
            .flatten()
            .filter(|inputs| run(inputs).0 == 0 && tells_apart(order, inputs));
        cases.extend(told_apart.take(KEPT_OF_ORDER).map(|inputs| (order, inputs)));
    }
    cases
}

pub fn tells_apart(order: Order, (discharge, exits, seeds): &Inputs) -> bool {
    let of = |order| flows(order, discharge, exits, seeds);
    of(Order::Paper) != of(order)
}

/// Inputs whose cells are whole in exact numbers, so that a last bit moves a whole part; none where the exit volumes
/// would be out of range.
fn exact_inputs(random: &mut Random) -> Option<Inputs> {
    let seeds = if random.one_in(4) {
        DEFAULT_SEEDS
    } else {
        [(); 4].map(|_| random_row(random))
    };
    let size = random.pick(&[2, 5, 20]);
    let mut parts = [(); 4].map(|_| {
        if random.one_in(4) {
            0
        } else {
            random.between(1, size)
        }
    });
    // in tenths of a vehicle an hour, of which access has whole ones
    parts[ACCESS] *= 10;
    let exits = due_exits(&parts, &seeds)?;
    let most = |numbers: [u32; 4]| numbers.into_iter().fold(1, u32::max);
    let entry_times = random.between(1, 60_000 / most(parts));
    let exit_times = random.between(1, 12000 / most(exits));
    Some((
        parts.map(|part| UNITS / 10 * part * entry_times),
        exits.map(|exit| exit * exit_times),
        seeds,
    ))
}

/// What the seeds give each exit, a hundred for each unit of discharge.
pub fn seeded(discharge: &[u32; 4], seeds: &Seeds) -> [u32; 4] {
    [0, 1, 2, 3].map(|j| (0..4).map(|i| discharge[i] * u32::from(seeds[i][j])).sum())
}

/// Thousandths: all of a volume or, where the entry is metered, a little less.
fn random_discharge(random: &mut Random, entry: usize) -> u32 {
    let volume = UNITS * random_volume(random, 6000);
    if entry == ACCESS || random.one_in(3) {
        volume
    } else {
        volume.saturating_sub(random.below(UNITS))
    }
}

fn random_volume(random: &mut Random, most: u32) -> u32 {
    let most = random.pick(&[3, 100, 1000, most]);
    if random.one_in(5) {
        0
    } else {
        random.between(1, most)
    }
}

/// Volumes at random, and exit volumes near to what the seeds give.
fn add_random(file: &mut File) {
    let mut random = Random::new(SEED + 1);
    for n in 0..720 {
        let seeds = if n % 3 == 0 {
            DEFAULT_SEEDS
        } else {
            [(); 4].map(|_| random_row(&mut random))
        };
        let discharge = [0, 1, 2, ACCESS].map(|entry| random_discharge(&mut random, entry));
        let mut exits = [(); 4].map(|_| random_volume(&mut random, 12000));
        if n % 2 == 0 {
            let likely = seeded(&discharge, &seeds);
            exits = likely.map(|exit| exit / (100 * UNITS) * random.between(60, 160) / 100);
            exits[THROUGH] += 1;
        }
        add(file, &(discharge, exits.map(|exit| exit.min(12000)), seeds));
    }
}
