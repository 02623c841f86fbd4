//! Random records with points, worked by both.

use reference::points::{work_points, Points, POINTS_MOST};
use reference::random::Random;
use reference::record::{read_u32, RECORD_BYTES, RUNNING_TIME_AT};
use reference::samples::random_points;
use reference::vectors::{
    profile_before, FIRST_BEFORE, OUTPUT_BEFORE, PASSING_BEFORE, SECOND_BEFORE,
};

use linked::calls::{self, PointWorkAnswer};

use crate::records::{cycle, expected_working, numbers, record, KINDS};
use crate::same::{same_list, Same, Tally};

/// Lengths of output, point profiles, first and second.
type Lengths = [usize; 4];
type Profiles = [Vec<u32>; 4];

const NAMES: [&str; 4] = [
    "output profile",
    "point profiles",
    "first work profile",
    "second work profile",
];

/// `tally` counts the numbers, `counts` the points of the accepted calls.
pub fn compare_points(random: &mut Random, n: u32, tally: &mut Tally, counts: &mut Tally) -> Same {
    let cycle = cycle(random, n);
    let record = record(random, n % KINDS, cycle);
    let points = random_points(random, running_time(&record));
    let lengths = lengths(random, cycle as usize, points.count);
    let number = compare_working(&record, &points, lengths);
    let compared = number.and_then(|number| {
        tally.count(number);
        if number == 0 {
            counts.count(points.count);
        }
        match points.count {
            0 => compare_without(&record, &points, lengths),
            _ => Ok(()),
        }
    });
    compared.map_err(|difference| {
        format!("record {n} with points: {difference}; {points:?}, lengths {lengths:?}, bytes {record:?}")
    })
}

/// What stands in the record's place of the running time, or some where it has none.
fn running_time(record: &[u8]) -> u32 {
    if record.len() != RECORD_BYTES {
        return 40000;
    }
    read_u32(record, RUNNING_TIME_AT)
}

/// Just enough, in one of eight longer, in one of eight a profile short by one, in one of sixteen any.
fn lengths(random: &mut Random, cycle: usize, count: u32) -> Lengths {
    let runs = POINTS_MOST.min(count as usize);
    let enough = [4 * cycle, runs * cycle, cycle, cycle];
    let mut lengths = enough;
    match random.below(16) {
        0 | 1 => lengths = enough.map(|length| length + random.below(30) as usize),
        2 => lengths[1] = enough[1].saturating_sub(1),
        3 => lengths[random.pick(&[0, 2, 3])] -= 1,
        4 => lengths = enough.map(|length| random.with_ends(0, 2 * length as u32) as usize),
        _ => (),
    }
    lengths
}

fn before(lengths: Lengths) -> Profiles {
    let [output, passing, first, second] = lengths;
    [
        profile_before(OUTPUT_BEFORE, output),
        profile_before(PASSING_BEFORE, passing),
        profile_before(FIRST_BEFORE, first),
        profile_before(SECOND_BEFORE, second),
    ]
}

fn same_profiles(told: &Profiles, expected: &Profiles) -> Same {
    let mut pairs = NAMES.iter().zip(told.iter().zip(expected));
    pairs.try_for_each(|(name, (told, expected))| same_list(name, told, expected))
}

fn library_working(record: &[u8], points: &Points, profiles: &mut Profiles) -> PointWorkAnswer {
    let [output, passing, first, second] = profiles;
    calls::segment_work_points(record, points.into(), output, passing, first, second)
}

/// The number of both.
fn compare_working(record: &[u8], points: &Points, lengths: Lengths) -> Result<u32, String> {
    let (mut told_profiles, mut profiles) = (before(lengths), before(lengths));
    let told = library_working(record, points, &mut told_profiles);
    let [output, passing, first, second] = &mut profiles;
    let result = work_points(record, points, output, passing, first, second);
    let blocked = result.map_or([0; POINTS_MOST], |worked| worked.blocked);
    let expected = expected_working(&result.map(|worked| worked.working));
    same_list("working", &numbers(&told.work), &numbers(&expected))?;
    same_list("blocked at the points", &told.blocked, &blocked)?;
    same_profiles(&told_profiles, &profiles)?;
    Ok(expected.number)
}

/// With no points the library's call is its working without: same answer, same profiles, and the point profiles stay.
fn compare_without(record: &[u8], points: &Points, lengths: Lengths) -> Same {
    let (mut with_none, mut without) = (before(lengths), before(lengths));
    let told = library_working(record, points, &mut with_none);
    let [output, _, first, second] = &mut without;
    let expected = calls::segment_work(record, output, first, second);
    same_list(
        "working with none",
        &numbers(&told.work),
        &numbers(&expected),
    )?;
    same_profiles(&with_none, &without)
}
