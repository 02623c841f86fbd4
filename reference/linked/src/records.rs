//! Random records, worked and discharged by both.

use reference::arrivals::ExitFigures;
use reference::discharge::discharge;
use reference::metering::capacity;
use reference::random::Random;
use reference::record::{
    ACCESS_AT, CYCLE_LEAST, CYCLE_MOST, HEADWAY_AT, RECORD_BYTES, RUNNING_TIME_AT,
};
use reference::samples::{
    busy, put_downstream, put_entry, put_exits, put_seeds, put_u16, put_u32, quiet, random_record,
    random_seeds, random_volume,
};
use reference::vectors::faults::{fault_pairs, faults};
use reference::vectors::metered::{random_little, random_whole_cells};
use reference::vectors::{profile_before, FIRST_BEFORE, OUTPUT_BEFORE, SECOND_BEFORE};
use reference::working::{work, Refused, Working};

use linked::calls::{self, WorkAnswer};

use crate::same::{bits, same_list, Same, Tally};

type Bytes = [u8; RECORD_BYTES];

/// Lengths of output, first, second and discharge profile.
type Lengths = [usize; 4];
/// Output, first and second.
pub type Profiles = [Vec<u32>; 3];

pub const KINDS: u32 = 14;

pub fn compare_record(random: &mut Random, n: u32, tally: &mut Tally) -> Same {
    let cycle = cycle(random, n);
    let record = record(random, n % KINDS, cycle);
    let lengths = lengths(random, cycle as usize);
    compare_working(&record, lengths, tally)
        .and_then(|()| compare_discharge(&record, lengths[3]))
        .map_err(|difference| {
            format!("record {n}: {difference}; lengths {lengths:?}, bytes {record:?}")
        })
}

/// The longest, the shortest and any.
pub fn cycle(random: &mut Random, n: u32) -> u32 {
    match n / KINDS % 8 {
        0 => CYCLE_MOST,
        1 => CYCLE_LEAST,
        _ => random.between(CYCLE_LEAST, CYCLE_MOST),
    }
}

pub fn record(random: &mut Random, kind: u32, cycle: u32) -> Vec<u8> {
    match kind {
        0 => long(random).to_vec(),
        1 => wrapped(random, cycle).to_vec(),
        2 => extreme(random, cycle).to_vec(),
        3 => faulty(random).to_vec(),
        4 => changed(random, cycle).to_vec(),
        5 => other_length(random, cycle),
        6 => random.bytes(RECORD_BYTES),
        7 => quiet(cycle).to_vec(),
        8 => random_little(random, cycle).to_vec(),
        9 => random_whole_cells(random, cycle).to_vec(),
        _ => random_record(random, cycle).to_vec(),
    }
}

/// 240 steps and 300 s.
fn long(random: &mut Random) -> Bytes {
    let mut record = wrapped(random, CYCLE_MOST);
    put_u32(&mut record, RUNNING_TIME_AT, 300_000);
    record
}

/// Greens past the end of the cycle, upstream and downstream.
fn wrapped(random: &mut Random, cycle: u32) -> Bytes {
    let mut record = random_record(random, cycle);
    for i in 0..3 {
        let (start, length) = past_end(random, cycle);
        let saturation = random.between(1200, 5000);
        let volume = random_volume(random, capacity(saturation, length, cycle));
        let entry = [volume, saturation, start, length, random.below(1001)];
        put_entry(&mut record, i, entry);
    }
    let greens = [(); 3].map(|_| past_end(random, cycle));
    put_downstream(&mut record, greens);
    record
}

fn past_end(random: &mut Random, cycle: u32) -> (u32, u32) {
    let start = random.between(cycle / 2, cycle - 1);
    (start, random.between(cycle - start + 1, cycle))
}

/// The most of everything, or the least of some of it.
fn extreme(random: &mut Random, cycle: u32) -> Bytes {
    let mut record = quiet(cycle);
    put_u32(&mut record, RUNNING_TIME_AT, random.pick(&[1000, 300_000]));
    put_u16(&mut record, HEADWAY_AT, random.pick(&[1000, 10000]));
    for i in 0..3 {
        let volume = random.pick(&[6000, 6000, 1, 0]);
        let start = random.pick(&[0, cycle - 1]);
        let length = random.pick(&[cycle, cycle, 1, 0]);
        let saturation = random.pick(&[12000, 12000, 12000, 1]);
        let on_green = random.pick(&[0, 999, 1000]);
        put_entry(
            &mut record,
            i,
            [volume, saturation, start, length, on_green],
        );
    }
    put_u16(&mut record, ACCESS_AT, random.pick(&[6000, 6000, 1, 0]));
    let exits = [(); 4].map(|_| random.pick(&[12000, 12000, 1, 0]));
    put_exits(&mut record, exits);
    put_downstream(
        &mut record,
        [(cycle - 1, cycle), (cycle - 1, 1), (0, cycle)],
    );
    put_seeds(&mut record, &random_seeds(random));
    record
}

/// One or two fields out of range.
fn faulty(random: &mut Random) -> Bytes {
    let record = busy(CYCLE_LEAST);
    if random.one_in(2) {
        let all = faults(CYCLE_LEAST);
        return all[random.below(all.len() as u32) as usize].applied(record);
    }
    let pairs = fault_pairs(CYCLE_LEAST);
    let pair = &pairs[random.below(pairs.len() as u32) as usize];
    pair.iter()
        .fold(record, |record, fault| fault.applied(record))
}

/// One byte changed anywhere.
fn changed(random: &mut Random, cycle: u32) -> Bytes {
    let mut record = random_record(random, cycle);
    record[random.below(RECORD_BYTES as u32) as usize] = random.below(256) as u8;
    record
}

fn other_length(random: &mut Random, cycle: u32) -> Vec<u8> {
    let mut record = random_record(random, cycle).to_vec();
    record.resize(random.with_ends(0, 2 * RECORD_BYTES as u32) as usize, 0);
    record
}

/// Just enough, in one of four longer, in one of eight one of them short, in one of sixteen any.
pub fn lengths(random: &mut Random, cycle: usize) -> Lengths {
    let exact = [4 * cycle, cycle, cycle, 3 * cycle];
    let mut lengths = exact;
    match random.below(16) {
        0..=3 => lengths = exact.map(|length| length + random.below(30) as usize),
        4 => lengths[random.below(4) as usize] -= 1,
        5 => lengths[random.below(4) as usize] = random.below(cycle as u32) as usize,
        6 => lengths = exact.map(|length| random.with_ends(0, 2 * length as u32) as usize),
        _ => (),
    }
    lengths
}

fn compare_working(record: &[u8], lengths: Lengths, tally: &mut Tally) -> Same {
    let [output, first, second, _] = lengths;
    let before = || profiles_before([output, first, second]);
    let (mut told_profiles, mut profiles) = (before(), before());
    let told = library_working(record, &mut told_profiles);
    let [output, first, second] = &mut profiles;
    let expected = expected_working(&work(record, output, first, second));
    tally.count(expected.number);
    same_list("working", &numbers(&told), &numbers(&expected))?;
    same_profiles(&told_profiles, &profiles)
}

pub fn library_working(record: &[u8], profiles: &mut Profiles) -> WorkAnswer {
    let [output, first, second] = profiles;
    calls::segment_work(record, output, first, second)
}

pub fn profiles_before([output, first, second]: [usize; 3]) -> Profiles {
    [
        profile_before(OUTPUT_BEFORE, output),
        profile_before(FIRST_BEFORE, first),
        profile_before(SECOND_BEFORE, second),
    ]
}

pub fn same_profiles(told: &Profiles, expected: &Profiles) -> Same {
    same_list("output profile", &told[0], &expected[0])?;
    same_list("first work profile", &told[1], &expected[1])?;
    same_list("second work profile", &told[2], &expected[2])
}

/// The reference's answer as the library tells it: all 0 where refused, but 15 with its last sum.
pub fn expected_working(result: &Result<Working, Refused>) -> WorkAnswer {
    let figures = |x: &ExitFigures| calls::ExitFigures {
        total: x.total,
        green: x.green,
        permille: x.permille,
    };
    match result {
        Ok(working) => WorkAnswer {
            number: 0,
            rounds: working.rounds,
            sum: working.last_sum,
            arrival: working.shift,
            blocked: working.blocked,
            pairs: working.flows,
            left: figures(&working.exits[0]),
            through: figures(&working.exits[1]),
            right: figures(&working.exits[2]),
            access: working.access_total,
        },
        Err(refused) => WorkAnswer {
            number: refused.number,
            sum: refused.last_sum,
            ..REFUSED
        },
    }
}

const NO_FIGURES: calls::ExitFigures = calls::ExitFigures {
    total: 0,
    green: 0,
    permille: 0,
};

const REFUSED: WorkAnswer = WorkAnswer {
    number: 0,
    rounds: 0,
    sum: 0.0,
    arrival: 0,
    blocked: 0,
    pairs: [[0; 4]; 4],
    left: NO_FIGURES,
    through: NO_FIGURES,
    right: NO_FIGURES,
    access: 0,
};

/// Number, rounds, last sum's bits, arrival, blocked, sixteen pair flows, three exits, access total.
pub fn numbers(told: &WorkAnswer) -> Vec<u64> {
    let mut numbers = vec![
        u64::from(told.number),
        u64::from(told.rounds),
        bits(told.sum),
    ];
    numbers.extend([told.arrival, told.blocked].map(u64::from));
    numbers.extend(told.pairs.concat().into_iter().map(u64::from));
    for exit in [told.left, told.through, told.right] {
        numbers.extend([exit.total, exit.green, u64::from(exit.permille)]);
    }
    numbers.push(told.access);
    numbers
}

fn compare_discharge(record: &[u8], length: usize) -> Same {
    let mut profile = profile_before(OUTPUT_BEFORE, length);
    let told = calls::segment_discharge(record, &mut profile);
    let mut profile2 = profile_before(OUTPUT_BEFORE, length);
    let expected = match discharge(record, &mut profile2) {
        Ok([left, through, right]) => [0, left, through, right],
        Err(number) => [number, 0, 0, 0],
    };
    let told = [told.number, told.left, told.through, told.right];
    same_list("discharge", &told, &expected)?;
    same_list("discharge profile", &profile, &profile2)
}
