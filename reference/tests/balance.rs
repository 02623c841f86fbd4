//! The balance: stored cases, orders of operations, rows of pair flows.

use reference::balance::{balance, check_volumes, pair_flows, Four, Outcome, ROUND_LIMIT};
use reference::random::Random;
use reference::record::{ACCESS, DEFAULT_SEEDS, LEFT, RIGHT, THROUGH};
use reference::samples::random_row;
use reference::vectors::balance::{order_cases, tells_apart};
use reference::vectors::balance_cases::{Inputs, BY_ROUNDS, BY_STOP};
use reference::vectors::orders::{flows, Order, OTHER_ORDERS};

fn random_inputs(random: &mut Random) -> Inputs {
    let volume = |random: &mut Random, most| {
        if random.one_in(4) {
            0
        } else {
            random.between(1, most)
        }
    };
    let seeds = if random.one_in(2) {
        DEFAULT_SEEDS
    } else {
        [(); 4].map(|_| random_row(random))
    };
    let discharge = [(); 4].map(|_| volume(random, 6_000_000));
    (discharge, [(); 4].map(|_| volume(random, 12000)), seeds)
}

#[test]
fn stored_rounds() {
    for (rounds, (discharge, exits, seeds)) in BY_ROUNDS {
        assert_eq!(check_volumes(discharge, exits, seeds), Ok(()));
        let result = balance(discharge, exits, seeds, ROUND_LIMIT + 1);
        assert!(matches!(result.outcome, Outcome::Settled(_)));
        assert_eq!(result.rounds, *rounds);
        let limited = balance(discharge, exits, seeds, ROUND_LIMIT);
        let settled = matches!(limited.outcome, Outcome::Settled(_));
        assert_eq!(settled, *rounds <= ROUND_LIMIT);
        assert_eq!(limited.rounds, ROUND_LIMIT.min(*rounds));
    }
}

#[test]
fn stored_stops() {
    for (stop, rounds, (discharge, exits, seeds)) in BY_STOP {
        assert_eq!(check_volumes(discharge, exits, seeds), Ok(()));
        let result = balance(discharge, exits, seeds, ROUND_LIMIT + 1);
        assert_eq!((result.stop, result.rounds), (Some(*stop), *rounds));
        let limited = balance(discharge, exits, seeds, ROUND_LIMIT);
        assert_eq!(
            (limited.outcome, limited.rounds),
            (result.outcome, result.rounds)
        );
        assert_eq!(limited.stop.is_some(), *rounds < ROUND_LIMIT);
        assert_eq!(limited.cells, [[0.0; 4]; 4]);
    }
}

/// A stopped round keeps the sum of the round before.
#[test]
fn last_sum_of_a_stop() {
    for (_, rounds, (discharge, exits, seeds)) in BY_STOP {
        let stopped = balance(discharge, exits, seeds, ROUND_LIMIT + 1);
        let before = balance(discharge, exits, seeds, *rounds);
        assert_eq!((before.outcome, before.stop), (stopped.outcome, None));
    }
}

#[test]
fn other_orders_are_told_apart() {
    let cases = order_cases();
    for order in OTHER_ORDERS {
        assert!(cases.iter().filter(|(of, _)| *of == order).count() >= 10);
    }
    assert!(cases
        .iter()
        .all(|(order, inputs)| tells_apart(*order, inputs)));
}

/// The second writing of the balance, in the paper's order, gives the same flows.
#[test]
fn two_writings_agree() {
    let mut random = Random::new(21);
    for _ in 0..20000 {
        let (discharge, exits, seeds) = random_inputs(&mut random);
        if check_volumes(&discharge, &exits, &seeds).is_err() {
            continue;
        }
        let result = balance(&discharge, &exits, &seeds, ROUND_LIMIT);
        let settled = matches!(result.outcome, Outcome::Settled(_));
        let expected = settled.then(|| pair_flows(&discharge, &result.cells));
        assert_eq!(flows(Order::Paper, &discharge, &exits, &seeds), expected);
    }
}

fn check_rows(discharge: &[u32; 4], cells: &[Four; 4]) {
    for (i, row) in pair_flows(discharge, cells).iter().enumerate() {
        check_row(row, discharge[i], &cells[i]);
    }
}

fn check_row(row: &[u32; 4], discharge: u32, cells: &Four) {
    assert_eq!(row.iter().sum::<u32>(), discharge);
    let units = |j: usize| cells[j] * 1000.0;
    let mut others = [LEFT, RIGHT, ACCESS].into_iter();
    assert!(others.all(|j| f64::from(row[j]) <= units(j)));
    assert!(f64::from(row[THROUGH]) >= units(THROUGH) - 1.0);
}

/// Rows add to O and follow the cells.
#[test]
fn rows_of_pair_flows() {
    let mut random = Random::new(22);
    for _ in 0..20000 {
        let (discharge, exits, seeds) = random_inputs(&mut random);
        if check_volumes(&discharge, &exits, &seeds).is_err() {
            continue;
        }
        let cells = balance(&discharge, &exits, &seeds, ROUND_LIMIT).cells;
        check_rows(&discharge, &cells);
    }
}

#[test]
fn what_is_left_over() {
    let cells = [
        [f64::MAX, 5.0, 5.0, 5.0],
        [0.4999, 0.0, 0.5019, 9.0],
        [0.0; 4],
        [1.0, 0.0, 0.0, 0.0],
    ];
    let expected = [
        [1000, 0, 0, 0],
        [499, 0, 501, 0],
        [0, 3000, 0, 0],
        [0, 0, 0, 0],
    ];
    assert_eq!(pair_flows(&[1000, 1000, 3000, 0], &cells), expected);
    // what is not a whole vehicle an hour is shared, too
    let expected = [
        [797_142, 0, 0, 0],
        [499, 0, 501, 9000],
        [0, 4, 0, 0],
        [1000, 0, 0, 0],
    ];
    let volumes = [797_142, 10_000, 4, 1000];
    assert_eq!(pair_flows(&volumes, &cells), expected);
}

/// Through 10 and access 90 in and out: the sums of three rounds written out.
#[test]
fn last_sums_written_out() {
    let (discharge, exits) = ([0, 10_000, 0, 90_000], [0, 10, 0, 90]);
    let (mut through, mut access) = (10.0, 90.0);
    for rounds in 1..=3 {
        let through_ratio = 10.0 / (through * 0.78 + access * 0.97);
        let access_ratio = 90.0 / (through * 0.02);
        let new_through = 10.0 / (through_ratio * 0.78 + access_ratio * 0.02);
        let new_access = 90.0 / (through_ratio * 0.97);
        let sum = (through - new_through) + (new_access - access);
        let result = balance(&discharge, &exits, &DEFAULT_SEEDS, rounds);
        assert_eq!(
            (result.outcome, result.rounds),
            (Outcome::Unsettled(sum), rounds)
        );
        (through, access) = (new_through, new_access);
    }
}

/// 13 goes before 14; 14 counts only entries with discharge and exits with volume.
#[test]
fn refused_volumes() {
    let seeds = [
        [100, 0, 0, 0],
        [50, 50, 0, 0],
        [50, 0, 50, 0],
        [0, 0, 0, 100],
    ];
    let number = |discharge, exits| check_volumes(&discharge, &exits, &seeds).err();
    assert_eq!(number([0; 4], [1; 4]), Some(13));
    assert_eq!(number([1; 4], [0; 4]), Some(13));
    assert_eq!(number([1; 4], [1; 4]), None);
    assert_eq!(number([1, 0, 1, 1], [1; 4]), Some(14));
    assert_eq!(number([1, 0, 1, 1], [1, 0, 1, 1]), None);
    assert_eq!(number([1; 4], [0, 1, 1, 1]), Some(14));
    assert_eq!(number([0, 1, 1, 1], [0, 1, 1, 1]), None);
    assert_eq!(number([0, 1, 1, 1], [0, 1, 1, 0]), Some(14));
}

/// The printed example settles in its first round.
#[test]
fn one_entry_settles_at_once() {
    let result = balance(
        &[0, 0, 0, 360_000],
        &[0, 360, 0, 0],
        &DEFAULT_SEEDS,
        ROUND_LIMIT,
    );
    assert!(matches!(result.outcome, Outcome::Settled(sum) if sum < 1e-9));
    assert_eq!(result.rounds, 1);
}
