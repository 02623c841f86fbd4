//! The working with points: what it writes, what it leaves, its refusals.

use reference::discharge::discharge;
use reference::points::{work_points, Point, PointWorking, Points};
use reference::random::Random;
use reference::record::{decode, ACCESS_AT, HEADWAY_AT, RUNNING_TIME_AT};
use reference::samples::{
    busy, put_entry, put_exits, put_seeds, put_u16, put_u32, quiet, random_points, random_record,
    RecordBytes,
};
use reference::vectors::discharge::refused_by_volume;
use reference::vectors::faults::faults;
use reference::working::{work, Refused};

/// Output, point profiles, first and second work profile.
type Profiles = [Vec<u32>; 4];

fn profiles(lengths: [usize; 4]) -> Profiles {
    let [output, passing, first, second] = lengths;
    [
        vec![11; output],
        vec![12; passing],
        vec![13; first],
        vec![14; second],
    ]
}

fn worked(
    record: &[u8],
    points: &Points,
    lengths: [usize; 4],
) -> (Result<PointWorking, Refused>, Profiles) {
    let mut after = profiles(lengths);
    let [output, passing, first, second] = &mut after;
    let result = work_points(record, points, output, passing, first, second);
    (result, after)
}

/// The number of refusal; a refusal must leave all four profiles.
fn number(record: &[u8], points: &Points, lengths: [usize; 4]) -> u32 {
    match worked(record, points, lengths) {
        (Ok(_), _) => 0,
        (Err(refused), after) => {
            assert_eq!(after, profiles(lengths));
            assert!(refused.number == 15 || refused.last_sum == 0.0);
            refused.number
        }
    }
}

/// Just enough for eight points.
fn exact(cycle: usize) -> [usize; 4] {
    [4 * cycle, 8 * cycle, cycle, cycle]
}

const GOOD: Point = Point {
    running: 20000,
    headway: 4100,
};
const EIGHT: Points = Points {
    count: 8,
    at: [GOOD; 8],
};

/// One point given, the others as good.
fn one(running: u32, headway: u32) -> Points {
    let mut points = Points { count: 1, ..EIGHT };
    points.at[0] = Point { running, headway };
    points
}

/// So many points, the one at `place` of a running time under the least.
fn with_bad(count: u32, place: usize) -> Points {
    let mut points = Points { count, ..EIGHT };
    points.at[place].running = 999;
    points
}

#[test]
fn at_most_eight_points() {
    for count in 0..=8 {
        let points = Points { count, ..EIGHT };
        assert_eq!(number(&busy(30), &points, exact(30)), 0);
    }
    for count in [9, 10, 256, 65536, u32::MAX] {
        let points = Points { count, ..EIGHT };
        assert_eq!(number(&busy(30), &points, exact(30)), 19);
        assert_eq!(number(&busy(30), &with_bad(count, 3), exact(30)), 19);
        assert_eq!(number(&busy(30), &points, [0; 4]), 19);
    }
}

#[test]
fn ranges_of_a_point() {
    for (running, headway, expected) in [
        (1000, 4100, 0),
        (999, 4100, 20),
        (0, 4100, 20),
        (40000, 4100, 0),
        (40001, 4100, 20),
        (u32::MAX, 4100, 20),
        (20000, 1000, 0),
        (20000, 999, 20),
        (20000, 10000, 0),
        (20000, 10001, 20),
        (20000, 65536 + 4100, 20),
    ] {
        let points = one(running, headway);
        assert_eq!(number(&busy(30), &points, exact(30)), expected);
    }
}

/// The most of a point's running time is the record's own, also at the ends of its range.
#[test]
fn the_record_s_own_running_time() {
    for own in [1000, 40000, 300_000] {
        let mut record = busy(30);
        put_u32(&mut record, RUNNING_TIME_AT, own);
        assert_eq!(number(&record, &one(own, 4100), exact(30)), 0);
        assert_eq!(number(&record, &one(own + 1, 4100), exact(30)), 20);
    }
}

#[test]
fn places_beyond_the_count_are_not_looked_at() {
    for place in 0..8 {
        let count = place as u32;
        assert_eq!(number(&busy(30), &with_bad(count, place), exact(30)), 0);
        let given = with_bad(count + 1, place);
        assert_eq!(number(&busy(30), &given, exact(30)), 20);
    }
}

#[test]
fn lengths_of_the_profiles() {
    let lengths = exact(30);
    assert_eq!(number(&busy(30), &EIGHT, lengths), 0);
    for short in 0..4 {
        let mut lengths = lengths;
        lengths[short] -= 1;
        assert_eq!(number(&busy(30), &EIGHT, lengths), 16);
        assert_eq!(number(&busy(30), &with_bad(8, 7), lengths), 20);
    }
    for count in 0..=8 {
        let points = Points { count, ..EIGHT };
        let enough = 30 * count as usize;
        assert_eq!(number(&busy(30), &points, [120, enough, 30, 30]), 0);
        if count > 0 {
            assert_eq!(number(&busy(30), &points, [120, enough - 1, 30, 30]), 16);
        }
    }
}

/// 6 to 12 come before the points, 19 and 20 before 16, and 16 before 13 to 15.
#[test]
fn order_of_the_refusals() {
    let nine = Points { count: 9, ..EIGHT };
    for fault in faults(30) {
        let record = fault.applied(busy(30));
        for points in [EIGHT, nine, with_bad(8, 0)] {
            assert_eq!(number(&record, &points, exact(30)), fault.number);
            assert_eq!(number(&record, &points, [0; 4]), fault.number);
        }
    }
    assert_eq!(number(&busy(30)[1..], &nine, exact(30)), 6);
    let expected = [13, 13, 14, 14, 15, 15];
    for (record, expected) in refused_by_volume().iter().zip(expected) {
        assert_eq!(number(record, &EIGHT, exact(30)), expected);
        assert_eq!(number(record, &EIGHT, [120, 239, 30, 30]), 16);
        assert_eq!(number(record, &with_bad(8, 4), exact(30)), 20);
        assert_eq!(number(record, &nine, exact(30)), 19);
    }
}

/// 15 comes with its last sum, as without points.
#[test]
fn last_sum_of_an_unsettled_balance() {
    let record = refused_by_volume()[4];
    let (result, _) = worked(&record, &EIGHT, exact(30));
    let mut after = profiles(exact(30));
    let [output, _, first, second] = &mut after;
    let without = work(&record, output, first, second).unwrap_err();
    assert_eq!(result.unwrap_err(), without);
    assert!(without.last_sum > 0.0);
}

/// Random lengths about those that are enough; some are short.
fn random_lengths(random: &mut Random, cycle: usize, count: u32) -> [usize; 4] {
    let enough = [4 * cycle, count.min(8) as usize * cycle, cycle, cycle];
    enough.map(|length| match random.below(12) {
        0 => length.saturating_sub(1),
        1 => length + random.below(9) as usize,
        _ => length,
    })
}

/// The answer and the three profiles of the working without points, as a call with some accepted points leaves them.
fn check_beside_work(record: &RecordBytes, points: &Points, lengths: [usize; 4]) {
    let (result, after) = worked(record, points, lengths);
    let mut without = profiles(lengths);
    let [output, passing, first, second] = &mut without;
    let answer = work(record, output, first, second);
    if points.count > 0 {
        passing.clone_from(&after[1]);
    } else {
        assert!(result.map_or(true, |worked| worked.blocked == [0; 8]));
    }
    assert_eq!(after, without);
    assert_eq!(result.map(|worked| worked.working), answer);
}

/// With none the call is the working without points, refusals too; with some it leaves the same beside them.
#[test]
fn the_working_without_points() {
    let mut random = Random::new(71);
    let mut met = [0; 2];
    for _ in 0..1500 {
        let cycle = random.with_ends(30, 90);
        let record = random_record(&mut random, cycle);
        let running_time = decode(&record).unwrap().running_time;
        let mut points = random_points(&mut random, running_time);
        points.count *= random.below(2);
        let lengths = random_lengths(&mut random, cycle as usize, points.count);
        let accepted = worked(&record, &points, lengths).0.is_ok();
        if points.count == 0 || accepted {
            check_beside_work(&record, &points, lengths);
            met[usize::from(accepted)] += 1;
        }
    }
    assert!(met.iter().all(|&count| count > 100), "{met:?}");
}

/// A point's run by another way: the discharge call, quotients, landing by remainders.
fn run_at(record: &RecordBytes, running: u64, cycle: usize) -> Vec<u32> {
    let mut leaving = vec![0; 3 * cycle];
    discharge(record, &mut leaving).unwrap();
    let access = u32::from(record[36]) + 256 * u32::from(record[37]);
    let divisor = 657_500 + 69 * running;
    let shift = ((862 * running + 435_000) / 1_000_000) as usize;
    let mut run = vec![1000 * access; cycle];
    for entry in leaving.chunks_exact(cycle) {
        let (mut level, mut carry) = (0, 0);
        for k in 0..65 * cycle {
            let made = 500_000 * u64::from(entry[k % cycle]) + (divisor - 500_000) * level + carry;
            (level, carry) = (made / divisor, made % divisor);
            if k >= 64 * cycle {
                run[(k + shift) % cycle] += level as u32;
            }
        }
    }
    run
}

/// Every number of the point profiles and every count; what lies beyond stays.
fn check_runs(record: &RecordBytes, points: &Points, cycle: usize) {
    let lengths = [4 * cycle, 8 * cycle + 5, cycle, cycle];
    let (Ok(answer), after) = worked(record, points, lengths) else {
        return;
    };
    let count = points.count as usize;
    let mut expected = vec![12; 8 * cycle + 5];
    let mut blocked = [0; 8];
    for (n, point) in points.at[..count].iter().enumerate() {
        let run = run_at(record, u64::from(point.running), cycle);
        let blocks = |&&flow: &&u32| u64::from(flow) * u64::from(point.headway) > 3_600_000_000;
        blocked[n] = run.iter().filter(blocks).count() as u32;
        expected[n * cycle..(n + 1) * cycle].copy_from_slice(&run);
    }
    assert_eq!(after[1], expected);
    assert_eq!(answer.blocked, blocked);
}

#[test]
fn runs_and_counts_of_the_points() {
    let mut random = Random::new(72);
    for _ in 0..600 {
        let cycle = random.with_ends(30, 240);
        let record = random_record(&mut random, cycle);
        let running_time = decode(&record).unwrap().running_time;
        let points = random_points(&mut random, running_time);
        check_runs(&record, &points, cycle as usize);
    }
}

/// Only access enters: its flow is the same at every point, whatever the record's headway.
#[test]
fn blocked_by_the_point_s_headway() {
    let mut record = quiet(30);
    put_u16(&mut record, ACCESS_AT, 879);
    put_u16(&mut record, HEADWAY_AT, 10000);
    put_exits(&mut record, [0, 1, 0, 0]);
    let mut points = Points { count: 3, ..EIGHT };
    for (point, headway) in points.at.iter_mut().zip([4095, 4096, 10000]) {
        point.headway = headway;
    }
    let (answer, after) = worked(&record, &points, exact(30));
    assert_eq!(after[1][..90], [879_000; 90]);
    assert_eq!(after[1][90..], [12; 150]);
    assert_eq!(answer.unwrap().blocked, [0, 30, 30, 0, 0, 0, 0, 0]);
}

/// The largest flow past a point: three entries saturated in one step, and access.
#[test]
fn largest_flow() {
    let mut record = quiet(30);
    put_u32(&mut record, RUNNING_TIME_AT, 1000);
    for i in 0..3 {
        put_entry(&mut record, i, [6000, 12000, 0, 30, 0]);
    }
    put_u16(&mut record, ACCESS_AT, 6000);
    put_exits(&mut record, [12000; 4]);
    put_seeds(&mut record, &[[25; 4]; 4]);
    let (answer, after) = worked(&record, &one(1000, 1000), exact(30));
    assert_eq!(answer.unwrap().blocked[0], 30);
    let most = after[1][..30].iter().max().unwrap();
    assert!((41_000_000..=42_000_000).contains(most), "{most}");
}
