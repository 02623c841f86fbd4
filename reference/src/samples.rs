//! Sample records and points for tests and vectors.

use crate::metering::{capacity, discharge_volumes, UNITS};
use crate::points::{Point, Points, POINTS_MOST};
use crate::random::Random;
use crate::record::{
    decode, Seeds, ACCESS_AT, CYCLE_AT, DOWNSTREAM_AT, ENTRIES_AT, ENTRY_BYTES, EXITS_AT, GREEN_IN,
    HEADWAYS, HEADWAY_AT, NUMBER_AT, ON_GREEN_IN, RECORD_BYTES, RUNNING_TIME_AT,
    RUNNING_TIME_LEAST, SATURATION_IN, SEEDS_AT, VOLUME_IN,
};

/// The bytes of a record.
pub type RecordBytes = [u8; RECORD_BYTES];

/// A signalised entry: volume, saturation, start post, green length, share on green.
pub type EntryFields = [u32; 5];

pub fn put_u16(bytes: &mut [u8], at: usize, value: u32) {
    bytes[at..at + 2].copy_from_slice(&value.to_le_bytes()[..2]);
}

pub fn put_u32(bytes: &mut [u8], at: usize, value: u32) {
    bytes[at..at + 4].copy_from_slice(&value.to_le_bytes());
}

pub fn put_green(bytes: &mut [u8], at: usize, start: u32, length: u32) {
    bytes[at] = start as u8;
    bytes[at + 1] = length as u8;
}

pub fn put_entry(record: &mut [u8], i: usize, [volume, saturation, start, length, p]: EntryFields) {
    let at = ENTRIES_AT + ENTRY_BYTES * i;
    put_u16(record, at + VOLUME_IN, volume);
    put_u16(record, at + SATURATION_IN, saturation);
    put_green(record, at + GREEN_IN, start, length);
    put_u16(record, at + ON_GREEN_IN, p);
}

pub fn put_exits(record: &mut [u8], exits: [u32; 4]) {
    for (j, exit) in exits.into_iter().enumerate() {
        put_u16(record, EXITS_AT + 2 * j, exit);
    }
}

pub fn put_downstream(record: &mut [u8], greens: [(u32, u32); 3]) {
    for (j, (start, length)) in greens.into_iter().enumerate() {
        put_green(record, DOWNSTREAM_AT + 2 * j, start, length);
    }
}

pub fn put_seeds(record: &mut [u8], seeds: &Seeds) {
    record[SEEDS_AT..].copy_from_slice(&seeds.concat());
}

/// A record in range with no volume and no green at all.
pub fn quiet(cycle: u32) -> RecordBytes {
    let mut record = [0; RECORD_BYTES];
    put_u32(&mut record, NUMBER_AT, 1);
    put_u16(&mut record, CYCLE_AT, cycle);
    put_u32(&mut record, RUNNING_TIME_AT, 40000);
    put_u16(&mut record, HEADWAY_AT, 4100);
    record
}

/// A record that the working accepts, with volume everywhere; greens fit 29 steps.
pub fn busy(cycle: u32) -> RecordBytes {
    let mut record = quiet(cycle);
    put_entry(&mut record, 0, [200, 1800, 2, 8, 400]);
    put_entry(&mut record, 1, [700, 3600, 10, 12, 600]);
    put_entry(&mut record, 2, [150, 1700, 22, 9, 333]);
    put_u16(&mut record, ACCESS_AT, 120);
    put_exits(&mut record, [150, 800, 200, 20]);
    put_downstream(&mut record, [(3, 9), (8, 14), (25, 20)]);
    record
}

/// A random record in range.
pub fn random_record(random: &mut Random, cycle: u32) -> RecordBytes {
    let mut record = quiet(cycle);
    put_u32(&mut record, NUMBER_AT, random.draw() as u32);
    let running_time = random.with_ends(1000, 300_000);
    put_u32(&mut record, RUNNING_TIME_AT, running_time);
    put_u16(&mut record, HEADWAY_AT, random.with_ends(1000, 10000));
    for i in 0..3 {
        let entry = random_entry(random, cycle);
        put_entry(&mut record, i, entry);
    }
    let access = if random.one_in(4) {
        0
    } else {
        random.with_ends(1, 1500)
    };
    put_u16(&mut record, ACCESS_AT, access);
    let green = |r: &mut Random| (r.with_ends(0, cycle - 1), r.with_ends(0, cycle));
    put_downstream(&mut record, [green(random), green(random), green(random)]);
    put_seeds(&mut record, &random_seeds(random));
    let exits = random_exits(random, &record);
    put_exits(&mut record, exits);
    record
}

/// A random record in range, of this running time if one is given.
pub fn random_street(random: &mut Random, cycle: u32, running_time: Option<u32>) -> RecordBytes {
    let mut record = random_record(random, cycle);
    if let Some(time) = running_time {
        put_u32(&mut record, RUNNING_TIME_AT, time);
    }
    record
}

fn random_entry(random: &mut Random, cycle: u32) -> EntryFields {
    let saturation = match random.below(12) {
        0 => 0,
        1 => 12000,
        2 => random.between(1, 100),
        _ => random.between(800, 6000),
    };
    let start = random.with_ends(0, cycle - 1);
    let length = random.with_ends(0, cycle);
    let volume = match random.below(8) {
        0 => 0,
        1 => 6000,
        _ => random_volume(random, capacity(saturation, length, cycle)),
    };
    [volume, saturation, start, length, random.with_ends(0, 1000)]
}

/// A volume of an entry with this capacity: in one of eight the whole vehicles of it or one more or less, where a
/// thousandth decides; in three of eight any above it; otherwise any.
pub fn random_volume(random: &mut Random, capacity: u32) -> u32 {
    let whole = (capacity / UNITS).min(5999);
    match random.below(8) {
        0 => random.between(whole.saturating_sub(1), whole + 1),
        1..=3 => random.between(whole + 1, 6000),
        _ => random.between(1, 2000),
    }
}

/// Sixteen zeros in one of three; otherwise random rows that add to 100.
pub fn random_seeds(random: &mut Random) -> Seeds {
    if random.one_in(3) {
        return [[0; 4]; 4];
    }
    [(); 4].map(|_| random_row(random))
}

/// A row that adds to 100, of one to six parts.
pub fn random_row(random: &mut Random) -> [u8; 4] {
    let mut row = [0; 4];
    let mut rest = 100;
    for _ in 1..random.between(1, 6) {
        let part = random.below(rest + 1);
        row[random.below(4) as usize] += part as u8;
        rest -= part;
    }
    row[random.below(4) as usize] += rest as u8;
    row
}

/// Exit volumes near to what the seeds give, or any at all in one of six.
fn random_exits(random: &mut Random, bytes: &RecordBytes) -> [u32; 4] {
    let record = decode(bytes).expect("fields are in range");
    let volumes = discharge_volumes(&record);
    if random.one_in(6) {
        return [(); 4].map(|_| random.with_ends(0, 12000));
    }
    let mut exits = [0; 4];
    for (j, exit) in exits.iter_mut().enumerate() {
        let likely: u32 = (0..4)
            .map(|i| volumes[i] * u32::from(record.seeds[i][j]))
            .sum();
        *exit = (likely / (100 * UNITS) * random.between(70, 140) / 100).min(12000);
    }
    exits
}

/// Any number of points, eight and too many among them; in one of four a place, given or not, is out of range.
pub fn random_points(random: &mut Random, running_time: u32) -> Points {
    let count = match random.below(8) {
        0 => 0,
        1 => 1,
        2 | 3 => 8,
        4 => random.pick(&[9, 9, 10, 255, 256, 65536, u32::MAX]),
        _ => random.between(2, 7),
    };
    let mut points = good_points(random, count, running_time);
    if random.one_in(4) {
        let place = random.below(POINTS_MOST as u32) as usize;
        points.at[place] = bad_point(random, points.at[place], running_time);
    }
    points
}

/// Points that a record of this running time takes, all places filled; in one of six with one running time.
pub fn good_points(random: &mut Random, count: u32, running_time: u32) -> Points {
    let (least, most) = (RUNNING_TIME_LEAST, running_time.max(RUNNING_TIME_LEAST));
    let mut at = [(); POINTS_MOST].map(|_| Point {
        running: random.with_ends(least, most),
        headway: random.with_ends(*HEADWAYS.start(), *HEADWAYS.end()),
    });
    if random.one_in(6) {
        let running = at[0].running;
        at = at.map(|point| Point { running, ..point });
    }
    Points { count, at }
}

/// The running time, the headway or both out of range.
fn bad_point(random: &mut Random, point: Point, running_time: u32) -> Point {
    let past = running_time.saturating_add(1);
    let running = random.pick(&[0, 999, past, past, u32::MAX]);
    let headway = random.pick(&[0, 999, 10001, 65536 + 4100, u32::MAX]);
    match random.below(3) {
        0 => Point { running, ..point },
        1 => Point { headway, ..point },
        _ => Point { running, headway },
    }
}
