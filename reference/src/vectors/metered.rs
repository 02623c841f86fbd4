//! Metered records: what their entries discharge need not be whole vehicles an hour.

use super::balance::seeded;
use super::balance_cases::Inputs;
use super::cuts::Cut;
use super::metered_cases::{BY_CUT, BY_ORDER};
use super::product;
use crate::metering::{capacity, discharge_volumes, UNITS};
use crate::random::Random;
use crate::record::{
    decode, Seeds, ACCESS_AT, CYCLE_LEAST, DEFAULT_SEEDS, LEFT, RIGHT, RUNNING_TIME_AT,
    RUNNING_TIME_LEAST, THROUGH,
};
use crate::samples::{
    busy, put_downstream, put_entry, put_exits, put_seeds, put_u16, put_u32, quiet, random_record,
    random_row, EntryFields, RecordBytes,
};
use std::iter::repeat_with;

/// Cycle, saturation and green length of the three entries, access volume, exit volumes, seeds.
/// Each entry has the most volume, so that it discharges its capacity.
pub type Metered = (u32, [[u32; 2]; 3], u32, [u32; 4], Seeds);

/// Cycles, and saturations and green lengths of little capacity: under one vehicle an hour, one, and a little more.
const LITTLE: [(u32, [u32; 2]); 8] = [
    (240, [1, 1]),
    (239, [1, 1]),
    (30, [1, 1]),
    (30, [29, 1]),
    (30, [1, 29]),
    (30, [1, 30]),
    (30, [30, 1]),
    (30, [31, 1]),
];

/// Entries with volumes at their capacity: the whole vehicles of it, one more or less, and the most.
/// The capacities are those of `LITTLE`, the paper's 797.142, one that is whole, a large one, and two that floats would make
/// a thousandth less: 1000·(203/50) and 27·(17000/30).
pub fn at_capacity() -> Vec<RecordBytes> {
    let more = [
        (70, [1800, 31]),
        (60, [1800, 20]),
        (31, [11_999, 15]),
        (50, [7, 29]),
        (30, [27, 17]),
    ];
    let with_volumes = |&(cycle, [saturation, length]): &(u32, [u32; 2])| {
        let whole = capacity(saturation, length, cycle) / UNITS;
        let around = [whole.saturating_sub(1), whole, whole + 1];
        [around, [6000, whole, 6000]].map(|volumes| {
            let mut record = busy(cycle);
            put_exits(&mut record, [150, 800, 200, 0]);
            for (i, volume) in volumes.into_iter().enumerate() {
                put_entry(&mut record, i, [volume, saturation, 4, length, 900]);
            }
            record
        })
    };
    LITTLE.iter().chain(&more).flat_map(with_volumes).collect()
}

/// The only discharge is under one vehicle an hour: of each entry alone, with all else idle.
pub fn little_alone() -> Vec<RecordBytes> {
    let alone = |((cycle, [saturation, length]), i): ((u32, [u32; 2]), usize)| {
        let mut record = quiet(cycle);
        put_entry(&mut record, i, [6000, saturation, 7, length, 950]);
        put_exits(&mut record, [3, 20, 5, 1]);
        record
    };
    let under_one = &LITTLE[..5];
    product(under_one, &[LEFT, THROUGH, RIGHT])
        .into_iter()
        .map(alone)
        .collect()
}

/// A discharge under one vehicle an hour beside much more: it alone serves an exit; it goes to no exit that has volume,
/// which is 14; it has no green, and so asks for no exit.
pub fn little_served() -> [RecordBytes; 3] {
    let mut alone_serves = busy(CYCLE_LEAST);
    put_entry(&mut alone_serves, RIGHT, [6000, 29, 20, 1, 950]);
    put_exits(&mut alone_serves, [6000, 6000, 1, 0]);
    let mut seeds = [[50, 50, 0, 0]; 4];
    seeds[RIGHT] = [40, 40, 20, 0];
    put_seeds(&mut alone_serves, &seeds);
    let mut unserved = alone_serves;
    put_exits(&mut unserved, [6000, 6000, 0, 0]);
    seeds[RIGHT] = [0, 0, 50, 50];
    put_seeds(&mut unserved, &seeds);
    let mut idle = unserved;
    put_entry(&mut idle, RIGHT, [6000, 29, 20, 0, 950]);
    [alone_serves, unserved, idle]
}

/// Records on the shortest street whose three entries are those of `BY_CUT`.
pub fn cut_records() -> Vec<RecordBytes> {
    let with = |&(_, cycle, entry): &(Cut, u32, EntryFields)| {
        let mut record = busy(cycle);
        put_u32(&mut record, RUNNING_TIME_AT, RUNNING_TIME_LEAST);
        put_u16(&mut record, ACCESS_AT, 0);
        (0..3).for_each(|i| put_entry(&mut record, i, entry));
        record
    };
    BY_CUT.iter().map(with).collect()
}

/// The records of `BY_ORDER`.
pub fn order_records() -> Vec<RecordBytes> {
    let records = BY_ORDER.iter().map(|(_, metered)| metered_record(metered));
    records.collect()
}

pub fn metered_record(&(cycle, entries, access, exits, seeds): &Metered) -> RecordBytes {
    let mut record = quiet(cycle);
    for (i, [saturation, length]) in entries.into_iter().enumerate() {
        let n = i as u32;
        let entry = [6000, saturation, 7 * n, length, 300 * n];
        put_entry(&mut record, i, entry);
    }
    put_u16(&mut record, ACCESS_AT, access);
    put_exits(&mut record, exits);
    put_downstream(&mut record, [(3, 9), (8, 14), (25, 20)]);
    put_seeds(&mut record, &seeds);
    record
}

/// What a metered record gives to the balance.
pub fn metered_inputs(metered: &Metered) -> Inputs {
    let record = decode(&metered_record(metered)).expect("fields are in range");
    (discharge_volumes(&record), record.exits, record.seeds)
}

/// A metered record whose cells are whole in exact numbers, so that a last bit moves a whole part; none where its exit
/// volumes would be out of range.
pub fn random_metered(random: &mut Random, cycle: u32) -> Option<Metered> {
    let most = random.pick(&[40, 400, 6000]);
    let entries = [(); 3].map(|_| {
        let saturation = random.between(1, most);
        [saturation, random.with_ends(0, cycle)]
    });
    let access = random.between(0, most / 2) * random.below(2);
    let row = random_row(random);
    let seeds = match random.below(3) {
        0 => DEFAULT_SEEDS,
        1 => [row; 4],
        _ => [(); 4].map(|_| random_row(random)),
    };
    let exits = if seeds == [row; 4] {
        shared_exits(random, &row)
    } else {
        let [left, through, right] = entries.map(|[s, length]| capacity(s, length, cycle));
        due_exits(&[left, through, right, UNITS * access], &seeds)?
    };
    let most = 12000 / exits.into_iter().fold(1, u32::max);
    let times = random.between(1, most.max(1));
    Some((
        cycle,
        entries,
        access,
        exits.map(|exit| exit * times),
        seeds,
    ))
}

/// A random record; one in sixteen is of little capacity, and one has cells that are whole in exact numbers.
pub fn random_of_kind(random: &mut Random, n: u32, cycle: u32) -> RecordBytes {
    match n % 16 {
        3 => random_little(random, cycle),
        7 => random_whole_cells(random, cycle),
        _ => random_record(random, cycle),
    }
}

/// The next that `random_metered` finds.
pub fn random_whole_cells(random: &mut Random, cycle: u32) -> RecordBytes {
    let mut found = repeat_with(|| random_metered(random, cycle)).flatten();
    metered_record(&found.next().expect("records without end"))
}

/// Capacities of a few thousandths and a little more with most arriving on green, where it shows how that is cut; most of
/// them on short streets.
pub fn random_little(random: &mut Random, cycle: u32) -> RecordBytes {
    let mut record = quiet(cycle);
    let running_time = random.pick(&[1000, 1000, 5000, 300_000]);
    put_u32(&mut record, RUNNING_TIME_AT, running_time);
    for i in 0..3 {
        let most = random.pick(&[1, 1, 3, 20, 240]);
        let saturation = random.between(1, most);
        let (start, length) = (random.below(cycle), random.with_ends(0, cycle));
        let volume = random.with_ends(0, 6000);
        let on_green = random.between(900, 1000);
        let entry = [volume, saturation, start, length, on_green];
        put_entry(&mut record, i, entry);
    }
    put_u16(&mut record, ACCESS_AT, random.pick(&[0, 0, 1, 7]));
    let exits = [[3, 20, 5, 1], [0, 1, 0, 0], [12000, 1, 300, 0]];
    put_exits(&mut record, random.pick(&exits));
    if random.one_in(4) {
        put_seeds(&mut record, &[(); 4].map(|_| random_row(random)));
    }
    record
}

/// Where all entries have the same seeds, each exit takes the same part of each entry, a few of a few.
fn shared_exits(random: &mut Random, row: &[u8; 4]) -> [u32; 4] {
    row.map(|seed| if seed > 0 { random.below(5) } else { 0 })
}

/// Exactly what the seeds give each exit, in the smallest numbers, if these are in range.
pub fn due_exits(discharge: &[u32; 4], seeds: &Seeds) -> Option<[u32; 4]> {
    let due = seeded(discharge, seeds);
    let divisor = due.into_iter().fold(0, greatest_divisor).max(1);
    let exits = due.map(|exit| exit / divisor);
    exits.iter().all(|&exit| exit <= 12000).then_some(exits)
}

fn greatest_divisor(a: u32, b: u32) -> u32 {
    if b == 0 {
        a
    } else {
        greatest_divisor(b, a % b)
    }
}
