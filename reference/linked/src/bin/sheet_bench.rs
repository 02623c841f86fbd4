//! Times the library's exam sheet, its working without a page and the reference's sheet, which ends at rest, in one process and
//! on the same accepted records.
//! usage: sheet_bench [REPEATS]

use std::hint::black_box;

use linked::calls;
use linked::timing::{median, once, repeats};
use reference::dispersion::Ending;
use reference::random::Random;
use reference::samples::{random_record, RecordBytes};
use reference::sheet::{sheet_ending, PAGE_BYTES};

const SEED: u64 = 0x5ee7_be4c;
/// Records of a line, each worked by all sides in turn.
const RECORDS: usize = 64;
const CYCLES: [u32; 4] = [30, 60, 120, 240];

/// A page, and profiles that are long enough for every record, lent to all sides in turn.
struct Lent {
    page: [u8; PAGE_BYTES],
    output: [u32; 960],
    first: [u32; 240],
    second: [u32; 240],
}

/// Each gives the number of refusal.
impl Lent {
    fn new() -> Lent {
        Lent {
            page: [0; PAGE_BYTES],
            output: [0; 960],
            first: [0; 240],
            second: [0; 240],
        }
    }

    fn by_library(&mut self, record: &RecordBytes) -> u32 {
        let answer = calls::segment_sheet(
            record,
            &mut self.page,
            &mut self.output,
            &mut self.first,
            &mut self.second,
        );
        black_box(&answer).number
    }

    fn without_page(&mut self, record: &RecordBytes) -> u32 {
        let answer =
            calls::segment_work(record, &mut self.output, &mut self.first, &mut self.second);
        black_box(&answer).number
    }

    fn by_reference(&mut self, record: &RecordBytes) -> u32 {
        let answer = sheet_ending(
            record,
            Ending::AtRest,
            &mut self.page,
            &mut self.output,
            &mut self.first,
            &mut self.second,
        );
        black_box(&answer).map_or_else(|refused| refused.number, |_| 0)
    }
}

/// Random records that are accepted, of any running time.
fn records(cycle: u32) -> Vec<RecordBytes> {
    let mut random = Random::new(SEED);
    let mut lent = Lent::new();
    let all = std::iter::repeat_with(|| random_record(&mut random, cycle));
    all.filter(|record| lent.by_reference(record) == 0)
        .take(RECORDS)
        .collect()
}

fn side_by_side(records: &[RecordBytes], repeats: usize) -> [f64; 3] {
    let mut lent = Lent::new();
    let mut times = [(); 3].map(|()| Vec::new());
    for record in (0..repeats).flat_map(|_| records) {
        times[0].push(once(|| lent.by_library(record)));
        times[1].push(once(|| lent.without_page(record)));
        times[2].push(once(|| lent.by_reference(record)));
    }
    times.map(median)
}

fn main() {
    let repeats = repeats();
    println!("cycle  sheet us  working us  reference us  to working  to reference");
    for cycle in CYCLES {
        let [sheet, working, reference] = side_by_side(&records(cycle), repeats);
        let (to_working, to_reference) = (sheet / working, sheet / reference);
        println!(
            "{cycle:5} {sheet:9.2} {working:11.2} {reference:13.2} {to_working:11.2} {to_reference:13.2}"
        );
    }
}
