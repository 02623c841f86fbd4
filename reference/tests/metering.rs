//! Metering to the thousandth of a vehicle an hour: what entries discharge, and what the working takes for a discharge.

use reference::arrivals::total;
use reference::discharge::{cycle_units, discharge, entry_discharge, green_units};
use reference::greens::{Green, Post};
use reference::metering::{capacity, discharge_volume, discharge_volumes};
use reference::random::Random;
use reference::record::{decode, Entry, ACCESS_AT};
use reference::samples::{busy, put_entry, put_exits, put_seeds, put_u16, quiet, random_record};
use reference::vectors::metered::{at_capacity, cut_records, little_alone, little_served};
use reference::vectors::working::long_record;
use reference::working::work;

fn entry([volume, saturation, start, length, on_green]: [u32; 5]) -> Entry {
    Entry {
        volume,
        saturation,
        green: Green {
            start: Post(start),
            length,
        },
        on_green,
    }
}

/// The number of refusal of the working, 0 where it accepts.
fn number(record: &[u8]) -> u32 {
    let (mut output, mut first, mut second) = ([0; 960], [0; 240], [0; 240]);
    let result = work(record, &mut output, &mut first, &mut second);
    result.map_or_else(|refused| refused.number, |_| 0)
}

#[test]
fn capacities() {
    assert_eq!(capacity(1800, 31, 70), 797_142);
    assert_eq!(capacity(1800, 30, 60), 900_000);
    assert_eq!([1, 2, 3].map(|length| capacity(1, length, 240)), [4, 8, 12]);
    assert_eq!(
        [0, 29, 30].map(|length| capacity(1, length, 30)),
        [0, 966, 1000]
    );
    assert_eq!(capacity(12000, 240, 240), 12_000_000);
    assert_eq!(capacity(11_999, 239, 240), 11_949_004);
}

/// Whole numbers throughout: in floats a capacity of whole thousandths can come one short.
#[test]
fn capacities_that_floats_make_less() {
    assert_eq!(
        [1000.0 * (203.0 / 50.0), 27.0 * (17_000.0 / 30.0)].map(|x: f64| x as u32),
        [4059, 15_299]
    );
    assert_eq!([capacity(7, 29, 50), capacity(27, 17, 30)], [4060, 15_300]);
}

/// The smaller of capacity and volume, the volume in thousandths.
#[test]
fn binding_volumes_and_capacities() {
    let volume = |volume| discharge_volume(&entry([volume, 1800, 0, 31, 500]), 70);
    assert_eq!([0, 1, 796, 797].map(volume), [0, 1000, 796_000, 797_000]);
    assert_eq!([798, 799, 6000].map(volume), [797_142; 3]);
    let whole = |volume| discharge_volume(&entry([volume, 1800, 0, 30, 500]), 60);
    assert_eq!([899, 900, 901].map(whole), [899_000, 900_000, 900_000]);
    let little = |volume| discharge_volume(&entry([volume, 1, 0, 1, 500]), 240);
    assert_eq!([0, 1, 6000].map(little), [0, 4, 4]);
}

/// The discharge call answers the three in thousandths; access discharges its volume.
#[test]
fn discharge_volumes_of_a_record() {
    let mut record = busy(70);
    put_entry(&mut record, 0, [6000, 1800, 3, 31, 500]);
    put_entry(&mut record, 2, [6000, 1, 3, 1, 500]);
    assert_eq!(
        discharge(&record, &mut [0; 210]),
        Ok([797_142, 617_142, 14])
    );
    let volumes = discharge_volumes(&decode(&record).unwrap());
    assert_eq!(volumes, [797_142, 617_142, 14, 120_000]);
}

/// A cycle discharges T = O·C exactly, of very little capacity and of much.
#[test]
fn a_cycle_discharges_its_volume() {
    let records = [at_capacity(), little_alone(), cut_records()].concat();
    for record in records.iter().map(|bytes| decode(bytes).unwrap()) {
        for entry in &record.entries {
            let volume = discharge_volume(entry, record.cycle);
            let leaving = entry_discharge(entry, record.cycle);
            assert_eq!(total(&leaving), cycle_units(volume, record.cycle));
        }
    }
    assert_eq!(cycle_units(797_142, 70), 55_799_940);
}

/// O 8, T 1920, of which 990 thousandths are 1900.8: 1900 arrive on green and 20 wait; rounded up, 19 would.
#[test]
fn what_arrives_on_green_is_cut() {
    assert_eq!(green_units(1920, 990), 1900);
    let leaving = entry_discharge(&entry([6000, 1, 209, 2, 990]), 240);
    assert_eq!(leaving[209..211], [970, 950]);
    assert_eq!(total(&leaving), 1920);
}

/// 13 is for no discharge at all: the least, 4 thousandths, is one, whichever entry has it.
#[test]
fn the_least_discharge_is_one() {
    for i in 0..3 {
        let mut record = quiet(240);
        put_exits(&mut record, [3, 20, 5, 1]);
        put_entry(&mut record, i, [6000, 1, 0, 1, 500]);
        assert_eq!(number(&record), 0);
        for nothing in [
            [0, 1, 0, 1, 500],
            [6000, 0, 0, 1, 500],
            [6000, 1, 0, 0, 500],
        ] {
            put_entry(&mut record, i, nothing);
            assert_eq!(number(&record), 13);
        }
    }
    assert!(little_alone().iter().all(|record| number(record) == 0));
}

/// 14 asks of the least discharge that an exit with volume takes it, and lets it alone serve one.
#[test]
fn the_least_discharge_is_served_and_serves() {
    assert_eq!(little_served().map(|record| number(&record)), [0, 14, 0]);
    let mut record = busy(240);
    put_entry(&mut record, 2, [6000, 1, 0, 1, 500]);
    put_seeds(
        &mut record,
        &[
            [50, 50, 0, 0],
            [50, 50, 0, 0],
            [0, 0, 0, 100],
            [50, 50, 0, 0],
        ],
    );
    put_exits(&mut record, [500, 500, 0, 0]);
    assert_eq!(number(&record), 14);
    put_entry(&mut record, 2, [6000, 1, 0, 0, 500]);
    assert_eq!(number(&record), 0);
    put_exits(&mut record, [500, 500, 0, 1]);
    assert_eq!(number(&record), 14);
}

/// With very little discharge the working returns what it wrote, and access is as it was.
#[test]
fn a_working_of_four_thousandths() {
    let mut record = quiet(240);
    put_entry(&mut record, 1, [6000, 1, 9, 1, 500]);
    put_u16(&mut record, ACCESS_AT, 7);
    put_exits(&mut record, [0, 1, 0, 0]);
    let (mut output, mut first, mut second) = ([0; 960], [0; 240], [0; 240]);
    let working = work(&record, &mut output, &mut first, &mut second).unwrap();
    assert_eq!(
        working.flows,
        [[0; 4], [0, 4, 0, 0], [0; 4], [0, 7000, 0, 0]]
    );
    // a cycle carries 960 flow units, and every step arrives with less than one too few or too many
    let through = working.exits[1].total - 240 * 7000;
    assert!(through.abs_diff(960) < 240, "{through}");
}

/// Most random records are metered to a capacity that is not whole vehicles an hour.
#[test]
fn random_records_are_metered() {
    let mut random = Random::new(92);
    let mut metered = [0; 2];
    for _ in 0..2000 {
        let cycle = random.with_ends(30, 240);
        let records = [random_record(&mut random, cycle), long_record(&mut random)];
        for (count, record) in metered.iter_mut().zip(records) {
            let volumes = discharge_volumes(&decode(&record).unwrap());
            *count += u32::from(volumes.iter().any(|volume| volume % 1000 > 0));
        }
    }
    assert!(metered.iter().all(|&count| count > 1200), "{metered:?}");
}
