//! Searches for the metered records and entries kept in `src/vectors/metered_cases.rs` and prints them.

use reference::balance::check_volumes;
use reference::dispersion::{disperse, Ending};
use reference::greens::{Green, Post};
use reference::metering::discharge_volume;
use reference::random::Random;
use reference::record::{Entry, CYCLE_LEAST, CYCLE_MOST, DEFAULT_SEEDS, RUNNING_TIME_LEAST};
use reference::samples::EntryFields;
use reference::vectors::balance::tells_apart;
use reference::vectors::cuts::{cut_discharge, Cut, OTHER_CUTS};
use reference::vectors::metered::{metered_inputs, random_metered, Metered};
use reference::vectors::orders::{Order, THOUSANDTH_ORDERS};
use reference::vectors::product;
use std::collections::BTreeMap;

const TRIES: usize = 2_000_000;
const KEPT_OF_ORDER: usize = 3;
const KEPT_OF_CUT: usize = 1;
/// Short cycles and long ones.
const CYCLES: [(u32, u32); 2] = [(CYCLE_LEAST, 60), (CYCLE_MOST - 1, CYCLE_MOST)];

/// The lines kept of each class, in the order in which they were found.
#[derive(Default)]
struct Found(BTreeMap<String, Vec<String>>);

impl Found {
    fn keep(&mut self, most: usize, class: String, line: String) {
        let kept = self.0.entry(class).or_default();
        if kept.len() < most {
            kept.push(line);
        }
    }

    fn print(&self) {
        self.0
            .values()
            .flatten()
            .for_each(|line| println!("    {line},"));
    }
}

/// Three entries at least discharge, and not all of them whole vehicles an hour; the other order is told apart.
fn told_apart(order: Order, metered: &Metered) -> bool {
    let inputs @ (discharge, exits, seeds) = metered_inputs(metered);
    discharge.iter().filter(|&&volume| volume > 0).count() >= 3
        && discharge.iter().any(|volume| volume % 1000 > 0)
        && check_volumes(&discharge, &exits, &seeds).is_ok()
        && tells_apart(order, &inputs)
}

fn kind_of_seeds((.., seeds): &Metered) -> &'static str {
    match seeds {
        &DEFAULT_SEEDS => "default",
        [a, b, c, d] if [a, b, c] == [b, c, d] => "same rows",
        _ => "other rows",
    }
}

fn print_orders() {
    let mut random = Random::new(797_142);
    let mut found = Found::default();
    let (least, most) = CYCLES[0];
    let mut try_one = || {
        let cycle = random.between(least, most);
        random_metered(&mut random, cycle)
    };
    for metered in (0..TRIES).filter_map(|_| try_one()) {
        let orders = THOUSANDTH_ORDERS.into_iter();
        for order in orders.filter(|&order| told_apart(order, &metered)) {
            let class = format!("{order:?} {}", kind_of_seeds(&metered));
            let line = format!("(Order::{order:?}, {metered:?})");
            found.keep(KEPT_OF_ORDER, class, line);
        }
    }
    found.print();
}

/// An entry of little capacity, with most arriving on green.
fn random_entry(random: &mut Random, cycle: u32) -> Entry {
    let saturation = random.pick(&[1, 1, 3, 20, 240]);
    Entry {
        volume: 6000,
        saturation: random.between(1, saturation),
        green: Green {
            start: Post(random.below(cycle)),
            length: random.between(1, cycle),
        },
        on_green: random.between(900, 999),
    }
}

/// The reported arrivals on the shortest street.
fn arrivals(leaving: &[u32]) -> Vec<u32> {
    let (mut first, mut second) = (leaving.to_vec(), leaving.to_vec());
    let (time, ending) = (RUNNING_TIME_LEAST, Ending::AtRest);
    disperse(leaving, time, ending, &mut first, &mut second).to_vec()
}

/// Another cut changes what the entry discharges, and what arrives.
fn tells_cut(cut: Cut, entry: &Entry, cycle: u32) -> bool {
    let [paper, other] = [Cut::Down, cut].map(|cut| cut_discharge(cut, entry, cycle));
    other != paper && arrivals(&other) != arrivals(&paper)
}

/// An entry's fields in the record's order.
fn fields(entry: &Entry) -> EntryFields {
    let Green { start, length } = entry.green;
    [
        entry.volume,
        entry.saturation,
        start.0,
        length,
        entry.on_green,
    ]
}

/// Classes by the digits of the discharge volume, of short cycles and of long ones.
fn print_cuts() {
    let mut random = Random::new(999);
    let mut found = Found::default();
    let classes = product(&OTHER_CUTS, &CYCLES);
    for (cut, (least, most)) in classes.into_iter().cycle().take(TRIES) {
        let cycle = random.between(least, most);
        let entry = random_entry(&mut random, cycle);
        if tells_cut(cut, &entry, cycle) {
            let digits = discharge_volume(&entry, cycle).to_string().len();
            let class = format!("{cut:?} {least:03} {digits}");
            let line = format!("(Cut::{cut:?}, {cycle}, {:?})", fields(&entry));
            found.keep(KEPT_OF_CUT, class, line);
        }
    }
    found.print();
}

fn main() {
    print_orders();
    print_cuts();
}
