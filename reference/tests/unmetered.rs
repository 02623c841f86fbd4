//! The rule before capacities had thousandths: capacity and discharge in whole vehicles an hour, and floats of these.
//! It is written out here; records of which no capacity cuts a volume keep every number that it gives.

use reference::arrivals::{blocked_steps, exit_figures, landing, total};
use reference::discharge::discharge;
use reference::dispersion::{arrival_time, disperse, Ending};
use reference::greens::Step;
use reference::metering::capacity;
use reference::random::Random;
use reference::record::{decode, Entry, Record, Seeds, ENTRIES_AT, ENTRY_BYTES};
use reference::samples::{busy, put_entry, put_u16, random_record, RecordBytes};
use reference::working::{work, Refused, Working};

const ALL: [usize; 4] = [0, 1, 2, 3];

/// Whole vehicles an hour.
fn whole_capacity(entry: &Entry, cycle: u32) -> u32 {
    entry.saturation * entry.green.length / cycle
}

/// Whole vehicles an hour.
fn whole_discharge(record: &Record) -> [u32; 4] {
    let [left, through, right] = record
        .entries
        .map(|entry| entry.volume.min(whole_capacity(&entry, record.cycle)));
    [left, through, right, record.access_volume]
}

/// T = 1000·O·C, and G = T·P/1000, which is whole.
fn profile(entry: &Entry, volume: u32, cycle: u32) -> Vec<u32> {
    let total = 1000 * u64::from(volume) * u64::from(cycle);
    assert_eq!(total * u64::from(entry.on_green) % 1000, 0);
    let on_green = total * u64::from(entry.on_green) / 1000;
    let length = u64::from(entry.green.length);
    let mut waiting = total - on_green;
    let mut profile = vec![0; cycle as usize];
    for (step, k) in entry.green.steps(cycle).zip(1..) {
        waiting += k * on_green / length - (k - 1) * on_green / length;
        let leaving = waiting.min(1000 * u64::from(entry.saturation));
        profile[step.index()] = leaving as u32;
        waiting -= leaving;
    }
    assert_eq!(waiting, 0);
    profile
}

/// 13 or 14, or none.
fn refused(discharge: &[u32; 4], exits: &[u32; 4], seeds: &Seeds) -> Option<u32> {
    if discharge.iter().sum::<u32>() == 0 || exits.iter().sum::<u32>() == 0 {
        return Some(13);
    }
    let linked = |i: usize, j: usize| discharge[i] > 0 && exits[j] > 0 && seeds[i][j] > 0;
    let entries = ALL.map(|i| discharge[i] == 0 || ALL.iter().any(|&j| linked(i, j)));
    let exits = ALL.map(|j| exits[j] == 0 || ALL.iter().any(|&i| linked(i, j)));
    (!(entries == [true; 4] && exits == [true; 4])).then_some(14)
}

fn sum(term: impl Fn(usize) -> f64) -> f64 {
    ((term(0) + term(1)) + term(2)) + term(3)
}

fn over(dividend: f64, divisor: f64) -> f64 {
    match dividend {
        0.0 => 0.0,
        _ => dividend / divisor,
    }
}

/// Rounds, last sum and pair flows of a balance that passed 13 and 14, or the last sum of one that does not settle.
fn balanced(
    discharge: &[u32; 4],
    exits: &[u32; 4],
    seeds: &Seeds,
) -> Result<(u32, f64, [[u32; 4]; 4]), f64> {
    let (o, e) = (discharge.map(f64::from), exits.map(f64::from));
    let p = seeds.map(|row| row.map(|seed| f64::from(seed) / 100.0));
    let (total, exit_total) = (sum(|i| o[i]), sum(|j| e[j]));
    let d = ALL.map(|j| (e[j] * total) / exit_total);
    let (mut oa, mut last) = (o, 0.0);
    for round in 1..=200 {
        let da = ALL.map(|j| sum(|i| oa[i] * p[i][j]));
        let b = ALL.map(|j| over(d[j], da[j]));
        let factor = ALL.map(|i| sum(|j| b[j] * p[i][j]));
        let new = ALL.map(|i| over(o[i], factor[i]));
        let differences = sum(|i| new[i].max(oa[i]) - new[i].min(oa[i]));
        let all = [da, b, factor, new, [differences; 4]].concat();
        if !all.iter().all(|number| number.is_finite()) {
            return Err(last);
        }
        (oa, last) = (new, differences);
        if last < 0.01 {
            let cell = |i: usize, j: usize| (oa[i] * b[j]) * p[i][j];
            let flows = ALL.map(|i| row(discharge[i], ALL.map(|j| cell(i, j))));
            return Ok((round, last, flows));
        }
    }
    Err(last)
}

/// Rows add to 1000·O.
fn row(discharge: u32, cells: [f64; 4]) -> [u32; 4] {
    let mut left = 1000 * discharge;
    let mut flows = [0; 4];
    for j in [0, 2, 3] {
        flows[j] = ((cells[j] * 1000.0) as u32).min(left);
        left -= flows[j];
    }
    flows[1] = left;
    flows
}

/// The answer of the working, and output, first and second work profile after it.
type Worked = (Result<Working, Refused>, [Vec<u32>; 3]);

fn before(steps: usize) -> [Vec<u32>; 3] {
    [vec![7; 4 * steps], vec![8; steps], vec![9; steps]]
}

/// The working in whole vehicles an hour.
fn work_whole(record: &Record) -> Worked {
    let steps = record.cycle as usize;
    let volumes = whole_discharge(record);
    let refuse = |number, last_sum| (Err(Refused { number, last_sum }), before(steps));
    if let Some(number) = refused(&volumes, &record.exits, &record.seeds) {
        return refuse(number, 0.0);
    }
    let (rounds, last_sum, flows) = match balanced(&volumes, &record.exits, &record.seeds) {
        Ok(balanced) => balanced,
        Err(last_sum) => return refuse(15, last_sum),
    };
    let [mut output, mut first, mut second] = before(steps);
    for (run, &flow) in output.chunks_exact_mut(steps).zip(&flows[3]) {
        run.fill(flow);
    }
    let shift = arrival_time(record.running_time);
    for (i, entry) in record.entries.iter().enumerate() {
        let leaving = profile(entry, volumes[i], record.cycle);
        let (time, all) = (record.running_time, Ending::AllCycles);
        let arrivals = disperse(&leaving, time, all, &mut first, &mut second);
        for (run, &flow) in output.chunks_exact_mut(steps).zip(&flows[i]) {
            add_share(arrivals, flow, volumes[i], shift, run);
        }
    }
    let run = |j: usize| &output[j * steps..(j + 1) * steps];
    let working = Working {
        shift,
        rounds,
        last_sum,
        flows,
        exits: [0, 1, 2].map(|j| exit_figures(run(j), record.downstream[j])),
        access_total: total(run(3)),
        blocked: blocked_steps(run(1), record.headway),
    };
    (Ok(working), [output, first, second])
}

/// floor((a·v + carry)/(1000·O)), landed.
fn add_share(arrivals: &[u32], flow: u32, volume: u32, shift: u32, run: &mut [u32]) {
    if volume == 0 {
        return;
    }
    let (whole, mut carry) = (1000 * u64::from(volume), 0);
    for (&arrival, step) in arrivals.iter().zip(1..) {
        let made = u64::from(arrival) * u64::from(flow) + carry;
        let place = landing(Step(step), shift, run.len() as u32);
        run[place.index()] += (made / whole) as u32;
        carry = made % whole;
    }
}

/// The working as it is called now.
fn work_now(bytes: &RecordBytes, steps: usize) -> Worked {
    let mut after = before(steps);
    let [output, first, second] = &mut after;
    (work(bytes, output, first, second), after)
}

/// The three profiles of the discharge call, in whole vehicles an hour, and the three volumes in thousandths.
fn discharge_whole(record: &Record) -> (Vec<u32>, [u32; 3]) {
    let volumes = whole_discharge(record);
    let profile = |i: usize| profile(&record.entries[i], volumes[i], record.cycle);
    let profiles = (0..3).flat_map(profile).collect();
    (profiles, [0, 1, 2].map(|i| 1000 * volumes[i]))
}

fn discharge_now(bytes: &RecordBytes, steps: usize) -> (Vec<u32>, [u32; 3]) {
    let mut profiles = vec![0; 3 * steps];
    let volumes = discharge(bytes, &mut profiles).unwrap();
    (profiles, volumes)
}

/// The discharge call, then the working, are as they were.
fn same(bytes: &RecordBytes) -> [bool; 2] {
    let record = decode(bytes).unwrap();
    let steps = record.cycle as usize;
    [
        discharge_now(bytes, steps) == discharge_whole(&record),
        work_now(bytes, steps) == work_whole(&record),
    ]
}

/// A random record whose volumes are brought down to the whole capacity where they are above it; in one of three of its
/// entries the volume is just that.
fn unmetered(random: &mut Random, cycle: u32) -> RecordBytes {
    let mut bytes = random_record(random, cycle);
    let record = decode(&bytes).unwrap();
    for (i, entry) in record.entries.iter().enumerate() {
        let most = whole_capacity(entry, cycle).min(6000);
        let volume = if random.one_in(3) {
            most
        } else {
            entry.volume.min(most)
        };
        put_u16(&mut bytes, ENTRIES_AT + ENTRY_BYTES * i, volume);
    }
    bytes
}

/// How many entries have volume and just as much whole capacity, though their capacity has thousandths, too.
fn at_the_border(bytes: &RecordBytes) -> usize {
    let record = decode(bytes).unwrap();
    let border = |entry: &&Entry| {
        let exact = capacity(entry.saturation, entry.green.length, record.cycle);
        let (whole, thousandths) = (exact / 1000, exact % 1000);
        entry.volume > 0 && entry.volume == whole && thousandths > 0
    };
    record.entries.iter().filter(border).count()
}

#[test]
fn unmetered_records_keep_every_number() {
    let mut random = Random::new(201);
    let mut numbers = [0; 16];
    let mut border = 0;
    for n in 0..3000 {
        let cycle = match n % 6 {
            0 => random.with_ends(30, 240),
            _ => random.between(30, 60),
        };
        let bytes = unmetered(&mut random, cycle);
        assert_eq!(same(&bytes), [true; 2], "{bytes:?}");
        let answer = work_now(&bytes, cycle as usize).0;
        numbers[answer.map_or_else(|refused| refused.number as usize, |_| 0)] += 1;
        border += at_the_border(&bytes);
    }
    assert!(numbers[0] > 1500 && border > 1500, "{numbers:?} {border}");
    assert!(numbers[13..].iter().all(|&count| count > 10), "{numbers:?}");
}

/// Metered to a capacity that is not whole, an entry discharges otherwise, and nearly every working is another.
#[test]
fn metered_records_change() {
    let mut random = Random::new(202);
    let (mut metered, mut worked) = (0, 0);
    for _ in 0..600 {
        let cycle = random.between(30, 60);
        let bytes = random_record(&mut random, cycle);
        let record = decode(&bytes).unwrap();
        let whole = |entry: &Entry| {
            let exact = capacity(entry.saturation, entry.green.length, cycle);
            let thousandths = exact % 1000;
            1000 * entry.volume <= exact || thousandths == 0
        };
        let [discharged, working] = same(&bytes);
        assert_eq!(discharged, record.entries.iter().all(whole), "{bytes:?}");
        metered += u32::from(!discharged);
        worked += u32::from(!working);
        // what is the same discharge is the same working
        assert!(working || !discharged, "{bytes:?}");
    }
    assert!(metered > 300 && worked > 250, "{metered} {worked}");
}

/// At 797.142 a volume of 797 is as it was, and one of 798 is metered to the thousandth.
#[test]
fn the_border_of_the_figure() {
    for (volume, kept) in [(796, true), (797, true), (798, false), (6000, false)] {
        let mut bytes = busy(70);
        put_entry(&mut bytes, 1, [volume, 1800, 5, 31, 600]);
        assert_eq!(same(&bytes), [kept; 2], "{volume}");
    }
    let mut bytes = busy(60);
    put_entry(&mut bytes, 1, [6000, 1800, 5, 20, 600]);
    assert_eq!(same(&bytes), [true; 2]);
}

/// A capacity under one vehicle an hour was none: then the record was refused with 13, now it works.
#[test]
fn less_than_one_was_nothing() {
    let mut bytes = busy(30);
    for i in 0..3 {
        put_entry(&mut bytes, i, [500, 29, 3, 1, 500]);
    }
    put_u16(&mut bytes, 36, 0);
    let whole = work_whole(&decode(&bytes).unwrap()).0;
    assert_eq!(whole.unwrap_err().number, 13);
    assert!(work_now(&bytes, 30).0.is_ok());
}
