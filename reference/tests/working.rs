//! The working as called: what it writes, what it leaves, its refusals.

use reference::arrivals::ExitFigures;
use reference::random::Random;
use reference::samples::{busy, put_entry, put_u16, put_u32, quiet, random_record, RecordBytes};
use reference::vectors::discharge::refused_by_volume;
use reference::vectors::faults::faults;
use reference::working::{work, Working};

/// Works a record on profiles of these lengths; a refusal must leave them all.
fn number(record: &[u8], [output, first, second]: [usize; 3]) -> u32 {
    let mut profiles = [vec![11; output], vec![12; first], vec![13; second]];
    let before = profiles.clone();
    let [output, first, second] = &mut profiles;
    match work(record, output, first, second) {
        Ok(_) => 0,
        Err(refused) => {
            assert_eq!(profiles, before);
            assert!(refused.number == 15 || refused.last_sum == 0.0);
            refused.number
        }
    }
}

fn worked(record: &[u8], cycle: usize) -> (Working, Vec<u32>) {
    let mut output = vec![11; 4 * cycle + 5];
    let (mut first, mut second) = (vec![12; cycle + 3], vec![13; cycle + 4]);
    let working = work(record, &mut output, &mut first, &mut second).unwrap();
    assert_eq!(output[4 * cycle..], [11; 5]);
    assert_eq!(first[cycle..], [12; 3]);
    assert_eq!(second[cycle..], [13; 4]);
    output.truncate(4 * cycle);
    (working, output)
}

#[test]
fn faults_leave_the_profiles() {
    for fault in faults(30) {
        let record = fault.applied(busy(30));
        assert_eq!(number(&record, [120, 30, 30]), fault.number);
        assert_eq!(number(&record, [0, 0, 0]), fault.number);
    }
    assert_eq!(number(&busy(30)[1..], [120, 30, 30]), 6);
}

#[test]
fn refused_volumes_leave_the_profiles() {
    let expected = [13, 13, 14, 14, 15, 15];
    for (record, expected) in refused_by_volume().iter().zip(expected) {
        assert_eq!(number(record, [120, 30, 30]), expected);
        assert_eq!(number(record, [119, 30, 30]), 16);
    }
}

#[test]
fn short_profiles() {
    assert_eq!(number(&busy(30), [120, 30, 30]), 0);
    for lengths in [
        [119, 30, 30],
        [120, 29, 30],
        [120, 30, 29],
        [0, 30, 30],
        [120, 0, 0],
    ] {
        assert_eq!(number(&busy(30), lengths), 16);
    }
}

/// A green of one step shows where it lands.
#[test]
fn landing_goes_round_many_times() {
    let mut record = quiet(30);
    put_u32(&mut record, 6, 300_000);
    put_entry(&mut record, 1, [400, 12000, 4, 1, 0]);
    put_u16(&mut record, 40, 400);
    let (working, output) = worked(&record, 30);
    let run = &output[30..60];
    let top = (0..30).max_by_key(|&at| run[at]).unwrap();
    // Step 5 and t' 259: 264 is 24 past eight cycles, at index 23.
    assert_eq!((working.shift, top), (259, 23));
    assert_eq!(
        working.exits[1].total,
        run.iter().map(|&flow| u64::from(flow)).sum()
    );
}

/// A right entry with no discharge leaves zeros in the work profiles.
#[test]
fn idle_right_entry() {
    let mut record = busy(30);
    put_entry(&mut record, 2, [0, 1800, 3, 9, 500]);
    let (mut output, mut first, mut second) = ([9; 120], [9; 31], [9; 32]);
    work(&record, &mut output, &mut first, &mut second).unwrap();
    assert_eq!((first[..30].to_vec(), first[30]), (vec![0; 30], 9));
    assert_eq!((second[..30].to_vec(), second[30]), (vec![0; 30], 9));
}

fn check_figures(figures: &ExitFigures, run: &[u32], [start, length]: [usize; 2]) {
    let cycle = run.len();
    let green = |at: usize| (at + cycle - start) % cycle < length;
    let on_green: u64 = (0..cycle)
        .filter(|&at| green(at))
        .map(|at| u64::from(run[at]))
        .sum();
    let total: u64 = run.iter().map(|&flow| u64::from(flow)).sum();
    assert_eq!((figures.total, figures.green), (total, on_green));
    let low = u64::from(figures.permille) * total;
    assert!(low <= 1000 * on_green && (total == 0 || 1000 * on_green < low + total));
}

/// The exit figures and the blocked count of an accepted record by another way.
fn check_working(record: &RecordBytes, cycle: usize) {
    let (working, output) = worked(record, cycle);
    let headway = u64::from(record[10]) + 256 * u64::from(record[11]);
    let blocks = |&&flow: &&u32| u64::from(flow) * headway > 3_600_000_000;
    let through = &output[cycle..2 * cycle];
    assert_eq!(
        working.blocked as usize,
        through.iter().filter(blocks).count()
    );
    for (j, run) in output.chunks_exact(cycle).take(3).enumerate() {
        let green = [record[46 + 2 * j], record[47 + 2 * j]].map(usize::from);
        check_figures(&working.exits[j], run, green);
    }
}

#[test]
fn figures_from_the_output() {
    let mut random = Random::new(61);
    for _ in 0..500 {
        let cycle = random.with_ends(30, 240) as usize;
        let record = random_record(&mut random, cycle as u32);
        if number(&record, [4 * cycle, cycle, cycle]) == 0 {
            check_working(&record, cycle);
        }
    }
}
