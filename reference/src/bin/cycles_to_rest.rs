//! Prints how many cycles are worked where they end at rest: rows of a table by running time and cycle, each number the
//! largest of many random discharges, and the cycles saved on average over random accepted records.
//! The largest is no bound: the entries of `vectors/rest.rs` work all 65.

use reference::discharge::entry_discharge;
use reference::dispersion::{cycles_to_rest, Ending, CYCLES};
use reference::random::Random;
use reference::record::{decode, Record, CYCLE_LEAST, CYCLE_MOST};
use reference::samples::random_record;
use reference::working::work_ending;

const SEED: u64 = 0xc7c1_e540;
const DISCHARGES: usize = 10_000;
const RECORDS: usize = 10_000;
const RUNNING_TIMES: [u32; 6] = [1000, 10_000, 30_000, 60_000, 100_000, 300_000];
const CYCLE_LENGTHS: [u32; 5] = [30, 60, 90, 120, 240];

/// The discharge of each of a record's entries, zeros too.
fn discharges(record: &Record) -> [Vec<u32>; 3] {
    record
        .entries
        .map(|entry| entry_discharge(&entry, record.cycle))
}

/// Discharges of random records' entries, those without any left out.
fn random_discharges(cycle: u32) -> Vec<Vec<u32>> {
    let mut random = Random::new(SEED);
    let record = || decode(&random_record(&mut random, cycle)).expect("fields are in range");
    std::iter::repeat_with(record)
        .flat_map(|record| discharges(&record))
        .filter(|leaving| leaving.iter().any(|&q| q > 0))
        .take(DISCHARGES)
        .collect()
}

fn print_rows() {
    let heads = CYCLE_LENGTHS.map(|cycle| format!(" C {cycle} |"));
    println!("| running time, ms |{}", heads.concat());
    println!("|---|{}", "---|".repeat(CYCLE_LENGTHS.len()));
    let samples = CYCLE_LENGTHS.map(random_discharges);
    for running_time in RUNNING_TIMES {
        let largest = |sample: &Vec<Vec<u32>>| {
            let worked = sample.iter().map(|q| cycles_to_rest(q, running_time));
            format!(" {} |", worked.max().unwrap_or(0))
        };
        println!(
            "| {running_time} |{}",
            samples.each_ref().map(largest).concat()
        );
    }
}

/// The next random record that is accepted, of any cycle and running time.
fn accepted(random: &mut Random) -> Record {
    let mut profiles = [0; 6 * CYCLE_MOST as usize];
    let (output, work) = profiles.split_at_mut(4 * CYCLE_MOST as usize);
    let (first, second) = work.split_at_mut(CYCLE_MOST as usize);
    loop {
        let cycle = random.with_ends(CYCLE_LEAST, CYCLE_MOST);
        let bytes = random_record(random, cycle);
        if work_ending(&bytes, Ending::AtRest, output, first, second).is_ok() {
            return decode(&bytes).expect("an accepted record");
        }
    }
}

fn print_saved() {
    let mut random = Random::new(SEED);
    let mut worked = 0;
    for _ in 0..RECORDS {
        let record = accepted(&mut random);
        let to_rest = |q: &Vec<u32>| cycles_to_rest(q, record.running_time);
        worked += discharges(&record).iter().map(to_rest).sum::<usize>();
    }
    let mean = worked as f64 / (3 * RECORDS) as f64;
    let saved = CYCLES as f64 - mean;
    println!("{RECORDS} random accepted records: {mean:.2} of {CYCLES} cycles worked on average, {saved:.2} saved");
}

fn main() {
    print_rows();
    print_saved();
}
