//! Times the library's working with points and the reference's, which works all cycles or ends at rest, in one process and
//! on the same accepted records.
//! usage: points_bench [REPEATS]

use std::hint::black_box;

use linked::calls;
use linked::timing::{median, once, repeats};
use reference::dispersion::Ending;
use reference::points::{work_points_ending, Points};
use reference::random::Random;
use reference::record::{read_u32, RUNNING_TIME_AT};
use reference::samples::{good_points, random_street, RecordBytes};

const SEED: u64 = 0x9017_be4c;
/// Records of a line, each worked by all sides in turn.
const RECORDS: usize = 64;
/// Cycles with the running time of the records, unless it is any.
const STREETS: [(u32, Option<u32>); 4] =
    [(60, None), (120, None), (240, None), (30, Some(300_000))];
const COUNTS: [u32; 3] = [0, 1, 8];

/// A record with its points, in the form of each side.
struct Sample {
    record: RecordBytes,
    points: Points,
    library_points: calls::Points,
}

/// Profiles that are long enough for every sample, lent to all sides in turn.
struct Profiles {
    output: [u32; 960],
    passing: [u32; 1920],
    first: [u32; 240],
    second: [u32; 240],
}

impl Profiles {
    fn new() -> Profiles {
        Profiles {
            output: [0; 960],
            passing: [0; 1920],
            first: [0; 240],
            second: [0; 240],
        }
    }

    /// The number of refusal that the library answers.
    fn by_library(&mut self, sample: &Sample) -> u32 {
        let answer = calls::segment_work_points(
            &sample.record,
            sample.library_points,
            &mut self.output,
            &mut self.passing,
            &mut self.first,
            &mut self.second,
        );
        black_box(&answer).work.number
    }

    /// The number of refusal that the reference answers.
    fn by_reference(&mut self, sample: &Sample, ending: Ending) -> u32 {
        let answer = work_points_ending(
            &sample.record,
            &sample.points,
            ending,
            &mut self.output,
            &mut self.passing,
            &mut self.first,
            &mut self.second,
        );
        black_box(&answer).map_or_else(|refused| refused.number, |_| 0)
    }
}

fn sample(random: &mut Random, cycle: u32, running_time: Option<u32>, count: u32) -> Sample {
    let record = random_street(random, cycle, running_time);
    let points = good_points(random, count, read_u32(&record, RUNNING_TIME_AT));
    Sample {
        record,
        points,
        library_points: calls::Points::from(&points),
    }
}

/// Random samples that are accepted; the same records for every count of points.
fn samples(cycle: u32, running_time: Option<u32>, count: u32) -> Vec<Sample> {
    let mut random = Random::new(SEED);
    let mut profiles = Profiles::new();
    let all = std::iter::repeat_with(|| sample(&mut random, cycle, running_time, count));
    all.filter(|sample| profiles.by_reference(sample, Ending::AtRest) == 0)
        .take(RECORDS)
        .collect()
}

fn side_by_side(samples: &[Sample], repeats: usize) -> [f64; 3] {
    let mut profiles = Profiles::new();
    let mut times = [(); 3].map(|()| Vec::new());
    for sample in (0..repeats).flat_map(|_| samples) {
        times[0].push(once(|| profiles.by_library(sample)));
        times[1].push(once(|| profiles.by_reference(sample, Ending::AllCycles)));
        times[2].push(once(|| profiles.by_reference(sample, Ending::AtRest)));
    }
    times.map(median)
}

fn main() {
    let repeats = repeats();
    println!("cycle  street points  library us  plain us  at rest us  to plain  to at rest");
    for (cycle, running_time) in STREETS {
        for count in COUNTS {
            let samples = samples(cycle, running_time, count);
            let [library, plain, at_rest] = side_by_side(&samples, repeats);
            let street = running_time.map_or("any".into(), |r| r.to_string());
            let (to_plain, to_at_rest) = (library / plain, library / at_rest);
            println!(
                "{cycle:5} {street:>7} {count:6} {library:11.2} {plain:9.2} {at_rest:11.2} {to_plain:9.2} {to_at_rest:11.2}"
            );
        }
    }
}
