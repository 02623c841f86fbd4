//! The discharge call on random records.

use reference::discharge::{cycle_units, discharge};
use reference::greens::Step;
use reference::random::Random;
use reference::record::{decode, Entry};
use reference::samples::{busy, random_record, RecordBytes};
use reference::vectors::discharge::refused_by_volume;
use reference::working::work;

fn check_profile(entry: &Entry, volume: u32, profile: &[u32]) {
    let cycle = profile.len() as u32;
    let total: u64 = profile.iter().map(|&q| u64::from(q)).sum();
    assert_eq!(total, cycle_units(volume, cycle));
    assert!(profile.iter().all(|&q| q <= 1000 * entry.saturation));
    let greens: Vec<Step> = entry.green.steps(cycle).collect();
    let mut outside = (1..=cycle).map(Step).filter(|step| !greens.contains(step));
    assert!(outside.all(|step| profile[step.index()] == 0));
}

fn check_profiles(bytes: &RecordBytes, cycle: usize) {
    let entries = decode(bytes).unwrap().entries;
    let mut profile = vec![5; 3 * cycle + 2];
    let volumes = discharge(bytes, &mut profile).unwrap();
    for (i, part) in profile.chunks_exact(cycle).take(3).enumerate() {
        check_profile(&entries[i], volumes[i], part);
    }
    assert_eq!(profile[3 * cycle..], [5, 5]);
}

/// Each profile adds to T, keeps to the green and to the saturation.
#[test]
fn profiles() {
    let mut random = Random::new(11);
    for _ in 0..2000 {
        let cycle = random.with_ends(30, 240);
        check_profiles(&random_record(&mut random, cycle), cycle as usize);
    }
}

#[test]
fn short_profile() {
    let mut profile = [5; 89];
    assert_eq!(discharge(&busy(30), &mut profile), Err(16));
    assert_eq!(profile, [5; 89]);
}

/// What the working refuses with 13, 14 and 15 discharges all the same.
#[test]
fn refused_by_the_working() {
    let numbers = refused_by_volume().map(|record| {
        assert!(discharge(&record, &mut [0; 90]).is_ok());
        let result = work(&record, &mut [0; 120], &mut [0; 30], &mut [0; 30]);
        result.unwrap_err().number
    });
    assert_eq!(numbers, [13, 13, 14, 14, 15, 15]);
}
