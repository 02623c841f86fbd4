//! Searches for the rare balances kept in `src/vectors/balance_cases.rs` and prints them.

use reference::balance::{balance, check_volumes, Outcome, Stop, ROUND_LIMIT};
use reference::metering::UNITS;
use reference::random::Random;
use reference::record::{Seeds, DEFAULT_SEEDS};
use reference::samples::random_row;
use std::collections::BTreeMap;

const TRIES: u32 = 6_000_000;
const KEPT: usize = 2;
const ROUNDS: [u32; 6] = [39, 40, 41, ROUND_LIMIT - 1, ROUND_LIMIT, ROUND_LIMIT + 1];

fn volume(random: &mut Random, most: u32) -> u32 {
    let most = random.pick(&[1, 3, 10, 100, 1000, most]);
    if random.one_in(4) {
        0
    } else {
        random.between(1, most)
    }
}

/// Random rows, rows of two seeds, or the default.
fn seeds(random: &mut Random) -> Seeds {
    let two = |r: &mut Random| {
        let mut row = [0; 4];
        let part = r.pick(&[0, 1, 2, 50]);
        row[r.below(4) as usize] += part;
        row[r.below(4) as usize] += 100 - part;
        row
    };
    match random.below(5) {
        0 => DEFAULT_SEEDS,
        1 | 2 => [(); 4].map(|_| two(random)),
        _ => [(); 4].map(|_| random_row(random)),
    }
}

/// The class of a balance that is kept, and what its line starts with.
fn class(outcome: Outcome, rounds: u32, stop: Option<Stop>) -> Option<(String, String)> {
    match (outcome, stop) {
        (Outcome::Settled(_), _) if ROUNDS.contains(&rounds) => {
            Some((format!("{rounds:03}"), format!("{rounds}")))
        }
        (Outcome::Unsettled(_), Some(stop)) => {
            let late = if rounds + 1 < ROUND_LIMIT { 0 } else { rounds };
            Some((
                format!("{stop:?} {late}"),
                format!("Stop::{stop:?}, {rounds}"),
            ))
        }
        _ => None,
    }
}

/// Adjusted volumes past the largest float at the right exit, which has no volume.
fn idle_exit(random: &mut Random) -> Option<String> {
    let discharge = [(); 4].map(|_| UNITS * random.between(1, 100));
    let exits = [0, random.between(1, 20), 0, random.between(1, 2000)];
    let heavy = [0, 1, 99, 0];
    let seeds = [heavy, heavy, heavy, [0, 0, 0, 100]];
    let result = balance(&discharge, &exits, &seeds, ROUND_LIMIT);
    let line = format!(
        "    (Stop::ExitVolume, {}, ({discharge:?}, {exits:?}, {seeds:?})),",
        result.rounds
    );
    (result.stop == Some(Stop::ExitVolume)).then_some(line)
}

fn print_idle_exits() {
    let mut random = Random::new(99);
    let idle = (0..TRIES).filter_map(|_| idle_exit(&mut random));
    idle.take(KEPT).for_each(|line| println!("{line}"));
}

/// A balance at random: its class and its line, if it is kept.
fn random_balance(random: &mut Random) -> Option<(String, String)> {
    let discharge = [(); 4].map(|_| UNITS * volume(random, 6000));
    let exits = [(); 4].map(|_| volume(random, 12000));
    let seeds = seeds(random);
    check_volumes(&discharge, &exits, &seeds).ok()?;
    let result = balance(&discharge, &exits, &seeds, ROUND_LIMIT + 1);
    let (class, start) = class(result.outcome, result.rounds, result.stop)?;
    let line = format!("    ({start}, ({discharge:?}, {exits:?}, {seeds:?})),");
    Some((class, line))
}

/// The first lines of each class.
fn first_of_each_class() -> BTreeMap<String, Vec<String>> {
    let mut random = Random::new(201);
    let mut found: BTreeMap<String, Vec<String>> = BTreeMap::new();
    for (class, line) in (0..TRIES).filter_map(|_| random_balance(&mut random)) {
        let kept = found.entry(class).or_default();
        if kept.len() < KEPT {
            kept.push(line);
        }
    }
    found
}

fn main() {
    print_idle_exits();
    let found = first_of_each_class();
    found.values().flatten().for_each(|line| println!("{line}"));
}
