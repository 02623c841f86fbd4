//! The vectors of the exam sheet: every kind of case that they are there for is among them.

mod reader;

use std::collections::BTreeSet;
use std::fmt::Debug;

use reference::record::{read_u16, read_u32, CYCLE_AT, NUMBER_AT};
use reference::vectors::sheet::{file, steady, STEADY};
use reference::working::work;

use reader::{cases, Reader};

struct Case {
    record: Vec<u8>,
    /// Of page, output, first and second work profile.
    lengths: [usize; 4],
    number: u32,
    page: Vec<u8>,
    output: Vec<u32>,
}

impl Case {
    fn read(body: &mut Reader) -> Case {
        let length = body.number(2) as usize;
        let record = body.bytes(length).to_vec();
        let lengths = [(); 4].map(|_| body.count());
        let number = body.word();
        body.number(8);
        let page = body.bytes(lengths[0]).to_vec();
        let output = body.words(lengths[1]);
        Case {
            record,
            lengths,
            number,
            page,
            output,
        }
    }

    fn cycle(&self) -> usize {
        read_u16(&self.record, CYCLE_AT) as usize
    }

    fn record_number(&self) -> u32 {
        read_u32(&self.record, NUMBER_AT)
    }

    /// The run of an exit, which an accepted case has.
    fn run(&self, exit: usize) -> &[u32] {
        let cycle = self.cycle();
        &self.output[exit * cycle..(exit + 1) * cycle]
    }

    /// The page's lines without the blanks at their ends.
    fn lines(&self) -> Vec<&str> {
        let text = std::str::from_utf8(&self.page[..4380]).unwrap();
        text.lines().map(str::trim_end).collect()
    }

    /// The words and numbers of the lines of the three signalised exits.
    fn exits(&self) -> [Vec<&str>; 3] {
        let lines = self.lines();
        [5, 6, 7].map(|line| lines[line].split(' ').collect())
    }

    fn profile_lengths(&self) -> [usize; 3] {
        let [_, output, first, second] = self.lengths;
        [output, first, second]
    }

    fn exact_profiles(&self) -> [usize; 3] {
        [4 * self.cycle(), self.cycle(), self.cycle()]
    }
}

/// All cases but the last, which is wrong on purpose.
fn all_cases() -> Vec<Case> {
    let bytes = file().bytes();
    let mut read: Vec<Case> = cases(&bytes).iter_mut().map(Case::read).collect();
    read.pop();
    read
}

/// The cases that have this number; 0 is accepted.
fn with_number(number: u32) -> Vec<Case> {
    let mut cases = all_cases();
    cases.retain(|case| case.number == number);
    cases
}

/// Each of `wanted` is met.
fn meets<T: Ord + Debug>(met: impl IntoIterator<Item = T>, wanted: impl IntoIterator<Item = T>) {
    let met: BTreeSet<T> = met.into_iter().collect();
    for item in wanted {
        assert!(met.contains(&item), "{item:?} is not met");
    }
}

#[test]
fn as_many_cases_as_said() {
    let cases = all_cases().len();
    assert!((150..=220).contains(&cases), "{cases}");
}

#[test]
fn cycles_and_last_rows() {
    let cycles = with_number(0).iter().map(Case::cycle).collect::<Vec<_>>();
    let edges = [30, 31, 39, 40, 41, 49, 50, 239, 240];
    meets(cycles.iter().copied(), edges);
    meets(cycles.iter().map(|cycle| cycle % 10), 0..10);
    let different: BTreeSet<&usize> = cycles.iter().collect();
    assert!(different.len() > 40, "{different:?}");
}

#[test]
fn pages_short_and_long() {
    let pages = |number| with_number(number).into_iter().map(|case| case.lengths[0]);
    meets(pages(0), [4380, 4381, 4452, 4500]);
    meets(pages(21), [0, 1, 4379]);
}

#[test]
fn every_refusal_with_a_short_page_and_a_good_one() {
    for number in 6..=16 {
        let short = with_number(number)
            .into_iter()
            .map(|case| case.lengths[0] < 4380);
        meets(short, [false, true]);
    }
}

/// Profiles just long enough and longer, of accepted cases and where the page alone is short.
#[test]
fn profiles_exact_and_longer() {
    for number in [0, 21] {
        let cases = with_number(number);
        let lengths = cases.iter().map(Case::profile_lengths);
        let longer = lengths
            .zip(cases.iter().map(Case::exact_profiles))
            .map(|(lengths, exact)| [0, 1, 2].map(|p| lengths[p] > exact[p]));
        meets(longer, [[false; 3], [true; 3]]);
        let lent = cases.iter().map(Case::profile_lengths);
        meets(lent, [[1000, 300, 300]]);
    }
}

#[test]
fn longest_lines() {
    let cases = with_number(0);
    let lines: Vec<&str> = cases.iter().flat_map(Case::lines).collect();
    let total = "total 5760000000 green 5760000000 permille 1000";
    let exits = ["l", "t", "r"].map(|name| format!("exit {name} {total}"));
    meets(lines.iter().copied(), exits.iter().map(String::as_str));
    meets(lines, ["card 4294967295 cycle 240 shift 259 rounds 200"]);
    let flows = cases.iter().flat_map(|case| case.run(1).iter().copied());
    meets(flows, [42_000_000]);
}

#[test]
fn smallest_numbers() {
    let cases = with_number(0);
    meets(cases.iter().map(Case::record_number), [0, 1]);
    let idle = |exit: usize| {
        cases
            .iter()
            .filter(move |case| case.run(exit) == vec![0; case.cycle()])
    };
    assert!(idle(1).any(|case| case.run(0)[0] > 0));
    assert!(idle(1).any(|case| case.run(0)[0] == 0 && case.run(2)[0] == 0));
}

/// Record numbers, platoon arrival times and rounds as long as they can be, and where they gain a digit.
#[test]
fn numbers_of_every_length() {
    let cases = with_number(0);
    let word = |at: usize| {
        let words = cases
            .iter()
            .map(move |case| case.lines()[0].split(' ').nth(at).unwrap().to_owned());
        words.map(|word| word.parse::<u32>().unwrap())
    };
    meets(
        word(1),
        (1..10).flat_map(|n| [10u32.pow(n) - 1, 10u32.pow(n)]),
    );
    meets(word(5), [1, 9, 10, 99, 100, 259]);
    meets(word(7).map(|rounds| rounds.to_string().len()), 1..=3);
}

/// The flows that the steady records say; rounded up or to the nearest some would be others.
#[test]
fn steady_flows() {
    for (record, (_, _, flow)) in steady().iter().zip(STEADY) {
        let (mut output, mut first, mut second) = ([0; 120], [0; 30], [0; 30]);
        work(record, &mut output, &mut first, &mut second).unwrap();
        assert_eq!(output[30..60], [flow; 30]);
    }
    let flows: Vec<u32> = with_number(0)
        .iter()
        .flat_map(|case| case.run(1).to_vec())
        .collect();
    meets(flows.iter().copied(), STEADY.map(|(_, _, flow)| flow));
    meets(flows.iter().map(|flow| flow % 1000), [0, 1, 499, 500, 999]);
    meets(
        flows.iter().map(|flow| (flow / 1000).to_string().len()),
        1..=5,
    );
}

/// The run of another exit on the page, or one exit's line for another's, would be seen.
#[test]
fn exits_that_differ() {
    let thousands = |run: &[u32]| run.iter().map(|flow| flow / 1000).collect::<Vec<_>>();
    let differ = |case: &Case| {
        let [left, through, right, access] = [0, 1, 2, 3].map(|exit| thousands(case.run(exit)));
        let others = [left, right, access];
        let exits = case.exits();
        let figure = |at: usize| BTreeSet::from([0, 1, 2].map(|exit: usize| exits[exit][at])).len();
        others.iter().all(|run| *run != through) && [3, 5, 7].map(figure) == [3; 3]
    };
    let differing = with_number(0).into_iter().filter(differ).count();
    assert!(differing > 20, "{differing}");
}

/// Sixteen pair flows of which no two are the same.
#[test]
fn pairs_that_differ() {
    let pairs = |case: &Case| -> usize {
        let lines = case.lines();
        let flows = lines[1..5].iter().flat_map(|line| line.split_whitespace());
        flows.collect::<BTreeSet<_>>().len()
    };
    let most = with_number(0).iter().map(pairs).max();
    assert_eq!(most, Some(16));
}
