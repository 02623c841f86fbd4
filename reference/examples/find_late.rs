//! Searches for entries whose arrivals change in the 65th cycle, as those kept in `src/vectors/rest.rs`, and prints them.
//! usage: find_late [LEAST MOST]    (volumes)

use reference::discharge::entry_discharge;
use reference::dispersion::{denominator, disperse, Ending, NUMERATOR};
use reference::greens::{Green, Post};
use reference::record::{Entry, CYCLE_LEAST, RUNNING_TIME_MOST};

const CYCLE: usize = CYCLE_LEAST as usize;
/// With this green and this share on green, nearly as much enters in a green step as leaves at rest on a long street.
const GREEN: usize = 28;
const ON_GREEN: u32 = 936;
const RUNNING_TIME_FROM: u32 = 270_000;
/// What leaves is sought this little above what enters: the link then gains a flow unit a cycle, for as long as it can.
const ABOVE: f64 = 0.05;
/// Running times looked at about the one that is found, milliseconds.
const ABOUT: u32 = 8;

fn entry(volume: u32, saturation: u32) -> Entry {
    Entry {
        volume,
        saturation,
        green: Green {
            start: Post(0),
            length: GREEN as u32,
        },
        on_green: ON_GREEN,
    }
}

/// The repeating flow of the last green step, in floats, is clearly above what enters.
fn is_above(leaving: &[u32], running_time: u32) -> bool {
    let factor = NUMERATOR as f64 / denominator(running_time) as f64;
    let pass = |start: f64, steps: &[u32]| {
        let step = |flow: f64, &q: &u32| flow + factor * (f64::from(q) - flow);
        steps.iter().fold(start, step)
    };
    let start = pass(0.0, leaving) / (1.0 - (1.0 - factor).powi(CYCLE as i32));
    let green = &leaving[..GREEN];
    pass(start, green) > f64::from(green[GREEN - 1]) + ABOVE
}

/// The running time where it comes to be above, or ceases to be.
fn turn(leaving: &[u32]) -> Option<u32> {
    let (mut low, mut high) = (RUNNING_TIME_FROM, RUNNING_TIME_MOST);
    let first = is_above(leaving, low);
    if first == is_above(leaving, high) {
        return None;
    }
    while high - low > 1 {
        let middle = (low + high) / 2;
        if is_above(leaving, middle) == first {
            low = middle;
        } else {
            high = middle;
        }
    }
    Some(high)
}

/// The 64th and the 65th cycle differ.
fn changes_last(leaving: &[u32], running_time: u32) -> bool {
    let (mut first, mut second) = ([0; CYCLE], [0; CYCLE]);
    let ending = Ending::AtRest;
    disperse(leaving, running_time, ending, &mut first, &mut second);
    first != second
}

fn print_found(volume: u32, saturation: u32) {
    let leaving = entry_discharge(&entry(volume, saturation), CYCLE_LEAST);
    let Some(turn) = turn(&leaving) else { return };
    for running_time in turn - ABOUT..=RUNNING_TIME_MOST.min(turn + ABOUT) {
        if changes_last(&leaving, running_time) {
            println!("    ({running_time}, [{volume}, {saturation}, 0, {GREEN}, {ON_GREEN}]),");
        }
    }
}

fn main() {
    let arguments: Vec<u32> = (std::env::args().skip(1))
        .map(|n| n.parse().expect("a volume"))
        .collect();
    let (least, most) = match arguments[..] {
        [least, most] => (least, most),
        _ => (4930, 4950),
    };
    for volume in least..=most {
        let enough = (volume * CYCLE_LEAST).div_ceil(GREEN as u32);
        (enough..=12000).for_each(|saturation| print_found(volume, saturation));
    }
}
