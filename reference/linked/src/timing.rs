//! Times of single calls, in turn on all sides, so that what else the machine does falls on few of them.

use std::time::{Duration, Instant};

/// How often each record is worked: the program's one argument, if any.
pub fn repeats() -> usize {
    let repeats = std::env::args().nth(1);
    repeats.map_or(41, |n| n.parse().expect("REPEATS"))
}

/// The time of one call, which gives a number of refusal and must accept.
pub fn once(call: impl FnOnce() -> u32) -> Duration {
    let start = Instant::now();
    let number = call();
    let time = start.elapsed();
    assert_eq!(number, 0);
    time
}

/// Microseconds.
pub fn median(mut times: Vec<Duration>) -> f64 {
    times.sort();
    times[times.len() / 2].as_secs_f64() * 1e6
}
