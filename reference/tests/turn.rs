//! The turn past the end of the cycle: the step that a number is, counted from 1.

use reference::arrivals::landing;
use reference::dispersion::arrival_time;
use reference::greens::{turned, Green, Post, Step};
use reference::random::Random;
use reference::record::{CYCLE_LEAST, CYCLE_MOST, RUNNING_TIME_MOST};

const MOST: u32 = 300;

/// The step of a number, given the cycle.
type Way = fn(u32, u32) -> u32;

fn the_turn(number: u32, cycle: u32) -> u32 {
    turned(number, cycle).0
}

/// From where C numbers in a row are tried: in the first cycles, among larger numbers and up to the largest.
fn starts(cycle: u32) -> impl Iterator<Item = u32> {
    let last = u32::MAX - cycle + 1;
    let mut random = Random::new(u64::from(cycle));
    let larger = [(); 30].map(|_| random.with_ends(2 * cycle, last));
    (1..=2 * cycle + 1).chain(larger).chain(last - cycle..=last)
}

/// Each of C numbers in a row from `start`, and its step.
fn row(way: Way, start: u32, cycle: u32) -> impl Iterator<Item = (u32, u32)> {
    (0..cycle).map(move |k| (start + k, way(start + k, cycle)))
}

/// Each step from 1 to C once, and no other.
fn each_once(steps: impl Iterator<Item = u32>, cycle: u32) -> bool {
    let mut met = vec![0; cycle as usize + 1];
    for step in steps {
        match met.get_mut(step as usize) {
            Some(count) => *count += 1,
            None => return false,
        }
    }
    met[0] == 0 && met[1..].iter().all(|&count| count == 1)
}

/// Whether every step given lies from 1 to C, is whole cycles away from its number, and is given once by C numbers in a row.
fn holding(way: Way, cycle: u32) -> [bool; 3] {
    let row = |start| row(way, start, cycle);
    let away = |(number, step): (u32, u32)| number.abs_diff(step) % cycle == 0;
    [
        starts(cycle).all(|start| row(start).all(|(_, step)| (1..=cycle).contains(&step))),
        starts(cycle).all(|start| row(start).all(away)),
        starts(cycle).all(|start| each_once(row(start).map(|(_, step)| step), cycle)),
    ]
}

#[test]
fn every_cycle_and_number() {
    for cycle in 1..=MOST {
        assert_eq!(holding(the_turn, cycle), [true; 3], "{cycle}");
    }
}

/// Counting on: the step after step C is step 1.
#[test]
fn as_counted_on() {
    for cycle in 1..=MOST {
        let mut step = 1;
        for number in 1..=4 * cycle + 1 {
            assert_eq!(the_turn(number, cycle), step, "{number} of {cycle}");
            step = if step == cycle { 1 } else { step + 1 };
        }
    }
}

/// Other ways, and which of the three hold of them.
const MISTAKES: [(Way, [bool; 3]); 7] = [
    // the remainder of the number itself
    (|n, c| n % c, [false, true, false]),
    (|n, c| n % c + 1, [true, false, true]),
    // one cycle taken off, past it or from its end on
    (|n, c| if n > c { n - c } else { n }, [false, true, false]),
    (|n, c| if n < c { n } else { n - c }, [false, true, false]),
    // a place, counted from 0
    (|n, c| (n - 1) % c, [false, false, false]),
    // no step after the last
    (|n, c| n.min(c), [true, false, false]),
    // a cycle of one step more
    (|n, c| (n - 1) % (c + 1) + 1, [false, false, false]),
];

#[test]
fn mistakes_are_seen() {
    for cycle in 2..=MOST {
        for (at, (way, holds)) in MISTAKES.into_iter().enumerate() {
            assert_eq!(holding(way, cycle), holds, "mistake {at} of {cycle}");
        }
    }
}

/// Whether these are C numbers in a row turned: the step after `post`, and on.
fn follow(post: u32, steps: impl Iterator<Item = Step>, cycle: u32) -> bool {
    let steps: Vec<u32> = steps.map(|step| step.0).collect();
    let mut away = steps.iter().zip(post + 1..);
    away.all(|(step, number)| number.abs_diff(*step) % cycle == 0)
        && each_once(steps.into_iter(), cycle)
}

/// A green of the whole cycle from any post, and the landing after any travel time.
#[test]
fn greens_and_landings() {
    for cycle in CYCLE_LEAST..=CYCLE_MOST {
        for post in 0..cycle {
            let (start, length) = (Post(post), cycle);
            let green = Green { start, length };
            assert!(follow(post, green.steps(cycle), cycle), "{post} {cycle}");
        }
        for shift in 1..=arrival_time(RUNNING_TIME_MOST) {
            let landings = (1..=cycle).map(|step| landing(Step(step), shift, cycle));
            assert!(follow(shift, landings, cycle), "{shift} {cycle}");
        }
    }
}
