//! Records by how soon their links come to rest.

use super::product;
use crate::discharge::entry_discharge;
use crate::dispersion::cycles_to_rest;
use crate::record::{decode, CYCLE_LEAST, RIGHT, RUNNING_TIME_AT};
use crate::record::{RUNNING_TIME_LEAST, RUNNING_TIME_MOST};
use crate::samples::{busy, put_entry, put_u32, EntryFields, RecordBytes};

/// Running times, and entries of the shortest cycle whose arrivals stay as they are from the 25th cycle to the 64th and
/// change in the 65th: in green nearly as much enters as leaves, so that the link gains but one flow unit a cycle.
/// `examples/find_late.rs` searches for such.
const LATE: [(u32, EntryFields); 5] = [
    (297_265, [4942, 11337, 0, 28, 936]),
    (297_835, [5208, 11913, 9, 28, 936]),
    (297_869, [4495, 6281, 29, 29, 968]),
    (299_463, [2464, 5590, 10, 28, 936]),
    (295_703, [3132, 4389, 4, 29, 968]),
];

pub fn by_rest() -> Vec<RecordBytes> {
    [late_to_rest(), slow_to_rest(), soon_at_rest().to_vec()].concat()
}

/// The right entry, then each entry, is one whose arrivals change in the last cycle.
pub fn late_to_rest() -> Vec<RecordBytes> {
    let with = |((time, entry), first): ((u32, EntryFields), usize)| {
        let mut record = street(CYCLE_LEAST, time);
        (first..=RIGHT).for_each(|i| put_entry(&mut record, i, entry));
        record
    };
    product(&LATE, &[RIGHT, 0]).into_iter().map(with).collect()
}

/// The shortest cycle on the longest street: one entry alone has a short green with much volume, then all three have
/// greens past the end of the cycle.
pub fn slow_to_rest() -> Vec<RecordBytes> {
    let mut idle = street(CYCLE_LEAST, RUNNING_TIME_MOST);
    (0..3).for_each(|i| put_entry(&mut idle, i, [0; 5]));
    let alone = (0..3).map(|i| {
        let mut record = idle;
        put_entry(&mut record, i, [6000, 12000, 4, 1, 0]);
        record
    });
    let past_end = [(29, 2), (20, 25), (29, 30)].map(|(start, length)| {
        let mut record = idle;
        for (i, on_green) in [0, 300, 1000].into_iter().enumerate() {
            put_entry(&mut record, i, [6000, 12000, start, length, on_green]);
        }
        record
    });
    alone.chain(past_end).collect()
}

/// Short streets: the second cycle ends in the state in which it began.
pub fn soon_at_rest() -> [RecordBytes; 3] {
    [CYCLE_LEAST, 45, 60].map(|cycle| street(cycle, RUNNING_TIME_LEAST))
}

/// A busy record of this running time.
fn street(cycle: u32, running_time: u32) -> RecordBytes {
    let mut record = busy(cycle);
    put_u32(&mut record, RUNNING_TIME_AT, running_time);
    record
}

/// The cycles that entry `i` of a record in range works until they repeat.
pub fn to_rest(bytes: &RecordBytes, i: usize) -> usize {
    let record = decode(bytes).expect("fields are in range");
    let leaving = entry_discharge(&record.entries[i], record.cycle);
    cycles_to_rest(&leaving, record.running_time)
}
