//! The metered records kept for the vectors: each tells another order of operations or another cut from the paper's, and is
//! among the vectors.

mod reader;

use std::collections::BTreeSet;

use reference::arrivals::add_pair;
use reference::balance::{balance, pair_flows, PairFlows, ROUND_LIMIT};
use reference::discharge::entry_discharge;
use reference::dispersion::{disperse, Ending};
use reference::metering::{discharge_volume, discharge_volumes};
use reference::random::Random;
use reference::record::{decode, Entry, Record, ACCESS};
use reference::samples::{random_record, RecordBytes};
use reference::vectors::cuts::{cut_discharge, Cut, OTHER_CUTS};
use reference::vectors::metered::{
    at_capacity, cut_records, little_alone, little_served, metered_inputs, metered_record,
    order_records, random_little, random_metered,
};
use reference::vectors::metered_cases::{BY_CUT, BY_ORDER};
use reference::vectors::orders::{flows, Order, THOUSANDTH_ORDERS};
use reference::vectors::{balance as balance_vectors, discharge, points, sheet, working, File};
use reference::working::{work, Working};

use reader::{cases, Reader};

/// The working with its output and first work profile, cut to size.
fn worked(bytes: &RecordBytes) -> (Working, Vec<u32>, Vec<u32>) {
    let steps = decode(bytes).unwrap().cycle as usize;
    let mut output = vec![0; 4 * steps];
    let (mut first, mut second) = (vec![0; steps], vec![0; steps]);
    let working = work(bytes, &mut output, &mut first, &mut second).unwrap();
    (working, output, first)
}

/// The largest difference of two pair flows.
fn largest_difference(one: &PairFlows, other: &PairFlows) -> u32 {
    let (one, other) = (one.concat(), other.concat());
    let differences = one.iter().zip(&other).map(|(a, b)| a.abs_diff(*b));
    differences.max().unwrap()
}

/// In balance and working alike, the kept records' pair flows are the paper's, and others in the order that they are kept for.
#[test]
fn other_orders_change_a_pair_flow() {
    for (order, metered) in BY_ORDER {
        let (discharge, exits, seeds) = metered_inputs(metered);
        assert!(discharge.iter().any(|volume| volume % 1000 > 0));
        let balanced = balance(&discharge, &exits, &seeds, ROUND_LIMIT);
        let found = pair_flows(&discharge, &balanced.cells);
        let [paper, other] = [Order::Paper, *order].map(|order| {
            let flows = flows(order, &discharge, &exits, &seeds);
            flows.expect("a balance that settles")
        });
        assert_eq!(found, paper);
        // a whole part by one, and through by what the others give or take
        let difference = largest_difference(&paper, &other);
        assert!((1..=3).contains(&difference), "{metered:?}");
        assert_eq!(worked(&metered_record(metered)).0.flows, paper);
    }
    for order in THOUSANDTH_ORDERS {
        assert!(BY_ORDER.iter().filter(|(of, _)| *of == order).count() >= 6);
    }
}

/// Whole vehicles an hour do not tell the sum divided from the quotients summed.
#[test]
fn whole_volumes_do_not_tell_the_total() {
    let mut random = Random::new(93);
    let mut settled = 0;
    for (mut discharge, exits, seeds) in
        (0..200_000).filter_map(|_| random_metered(&mut random, 40).map(|m| metered_inputs(&m)))
    {
        discharge = discharge.map(|volume| volume / 1000 * 1000);
        let of = |order| flows(order, &discharge, &exits, &seeds);
        if discharge[..ACCESS].iter().any(|&volume| volume > 0) {
            assert_eq!(of(Order::Paper), of(Order::WholeTotal));
            settled += u32::from(of(Order::Paper).is_some());
        }
    }
    assert!(settled > 1000, "{settled}");
}

/// The second writing of the discharge, with the paper's cut, gives the same profiles.
#[test]
fn two_writings_agree() {
    let mut random = Random::new(94);
    let random_records = (0..1000).map(|_| {
        let cycle = random.with_ends(30, 240);
        random_record(&mut random, cycle)
    });
    let kept = [cut_records(), at_capacity(), little_alone()].concat();
    for bytes in random_records.chain(kept) {
        let record = decode(&bytes).unwrap();
        for entry in &record.entries {
            let profile = cut_discharge(Cut::Down, entry, record.cycle);
            assert_eq!(profile, entry_discharge(entry, record.cycle));
        }
    }
}

/// The output and the first work profile as they would be if the entries were discharged with this cut.
fn after_cut(record: &Record, working: &Working, cut: Cut) -> (Vec<u32>, Vec<u32>) {
    let steps = record.cycle as usize;
    let volumes = discharge_volumes(record);
    let (mut first, mut second) = (vec![0; steps], vec![0; steps]);
    let access = working.flows[ACCESS].iter();
    let mut output: Vec<u32> = access.flat_map(|&flow| vec![flow; steps]).collect();
    for (i, entry) in record.entries.iter().enumerate() {
        let leaving = cut_discharge(cut, entry, record.cycle);
        let (time, all) = (record.running_time, Ending::AllCycles);
        let arrivals = disperse(&leaving, time, all, &mut first, &mut second);
        for (run, &flow) in output.chunks_exact_mut(steps).zip(&working.flows[i]) {
            add_pair(arrivals, flow, volumes[i], working.shift, run);
        }
    }
    (output, first)
}

/// With the cut that it is kept for, an entry discharges otherwise, and both profiles of the working become others.
#[test]
fn other_cuts_change_the_profiles() {
    for ((cut, cycle, _), bytes) in BY_CUT.iter().zip(cut_records()) {
        let record = decode(&bytes).unwrap();
        assert_eq!(record.cycle, *cycle);
        let entry = &record.entries[0];
        let paper = entry_discharge(entry, *cycle);
        assert_ne!(cut_discharge(*cut, entry, *cycle), paper);
        let (working, output, first) = worked(&bytes);
        let same = after_cut(&record, &working, Cut::Down);
        assert_eq!((&same.0, &same.1), (&output, &first));
        let other = after_cut(&record, &working, *cut);
        assert!(other.0 != output && other.1 != first, "{cut:?} {entry:?}");
    }
}

/// Every other cut is met at discharges of a few thousandths, of short cycles and of long ones.
#[test]
fn cuts_of_every_kind() {
    for cut in OTHER_CUTS {
        let of_cut = BY_CUT.iter().zip(cut_records());
        let little: BTreeSet<bool> = of_cut
            .filter(|((of, ..), _)| *of == cut)
            .filter(|((_, cycle, _), bytes)| {
                let entry = decode(bytes.as_slice()).unwrap().entries[0];
                discharge_volume(&entry, *cycle) < 100
            })
            .map(|((_, cycle, _), _)| *cycle <= 60)
            .collect();
        assert_eq!(little.len(), 2, "{cut:?}");
    }
}

/// Of random records of little capacity most are accepted, and some tell a cut.
#[test]
fn little_capacities_at_random() {
    let mut random = Random::new(96);
    let (mut accepted, mut tell) = (0, 0);
    for _ in 0..3000 {
        let cycle = random.with_ends(30, 240);
        let bytes = random_little(&mut random, cycle);
        let (mut output, mut first, mut second) = ([0; 960], [0; 240], [0; 240]);
        accepted += u32::from(work(&bytes, &mut output, &mut first, &mut second).is_ok());
        let entries = decode(&bytes).unwrap().entries;
        let tells = |entry: &Entry, cut: Cut| {
            cut_discharge(cut, entry, cycle) != cut_discharge(Cut::Down, entry, cycle)
        };
        let tells_one = |entry: &Entry| OTHER_CUTS.iter().any(|&cut| tells(entry, cut));
        tell += u32::from(entries.iter().any(tells_one));
    }
    assert!(accepted > 1500 && tell > 100, "{accepted} {tell}");
}

/// Unmetered entries are not cut: T·P/1000 is whole.
#[test]
fn unmetered_entries_tell_no_cut() {
    let mut random = Random::new(95);
    for _ in 0..2000 {
        let cycle = random.with_ends(30, 90);
        let record = decode(&random_record(&mut random, cycle)).unwrap();
        for entry in &record.entries {
            if discharge_volume(entry, cycle) == 1000 * entry.volume {
                let paper = cut_discharge(Cut::Down, entry, cycle);
                for cut in OTHER_CUTS {
                    assert_eq!(cut_discharge(cut, entry, cycle), paper);
                }
            }
        }
    }
}

/// The records of a file whose cases begin with one, each with its number, which stands so many bytes further.
fn answered(file: &File, further: usize) -> BTreeSet<(Vec<u8>, u32)> {
    let bytes = file.bytes();
    let answer = |body: &mut Reader| {
        let length = body.number(2) as usize;
        let record = body.bytes(length).to_vec();
        body.bytes(further);
        (record, body.word())
    };
    cases(&bytes).iter_mut().map(answer).collect()
}

/// The number of refusal of the working with profiles that are long enough, 0 where it accepts.
fn number(record: &RecordBytes) -> u32 {
    let (mut output, mut first, mut second) = ([0; 960], [0; 240], [0; 240]);
    let result = work(record, &mut output, &mut first, &mut second);
    result.map_or_else(|refused| refused.number, |_| 0)
}

/// How many of these records are answered as the working answers them.
fn holds(file: &File, further: usize, records: &[RecordBytes]) -> usize {
    let all = answered(file, further);
    let held = |record: &&RecordBytes| all.contains(&(record.to_vec(), number(record)));
    records.iter().filter(held).count()
}

#[test]
fn the_vectors_hold_them() {
    let accepted = [little_alone(), cut_records(), order_records()].concat();
    assert!(accepted.iter().all(|record| number(record) == 0));
    let everywhere = [accepted, at_capacity()].concat();
    let discharges = answered(&discharge::file(), 2);
    let mut discharged = everywhere.iter().map(|record| (record.to_vec(), 0));
    assert!(discharged.all(|case| discharges.contains(&case)));
    let also = [everywhere, little_served().to_vec()].concat();
    assert_eq!(holds(&working::file(), 12, &also), also.len());
    assert!(holds(&points::file(), 84, &also) >= 17);
    assert!(holds(&sheet::file(), 16, &also) >= 13);
    // a cut is told by an accepted record alone
    let cuts = cut_records();
    assert!(holds(&points::file(), 84, &cuts) >= 2 && holds(&sheet::file(), 16, &cuts) >= 4);
    let bytes = balance_vectors::file().bytes();
    let inputs = |body: &mut Reader| (body.words(8), body.bytes(16).to_vec());
    let balances: BTreeSet<(Vec<u32>, Vec<u8>)> = cases(&bytes).iter_mut().map(inputs).collect();
    for (_, metered) in BY_ORDER {
        let (discharge, exits, seeds) = metered_inputs(metered);
        assert!(balances.contains(&([discharge, exits].concat(), seeds.concat())));
    }
}
