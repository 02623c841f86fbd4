//! Test vectors for other code, from a fixed seed.

pub mod archive;
pub mod balance;
pub mod balance_cases;
pub mod cuts;
pub mod discharge;
pub mod faults;
pub mod metered;
pub mod metered_cases;
pub mod orders;
pub mod points;
pub mod range_ends;
pub mod rest;
pub mod sheet;
pub mod working;

use std::collections::BTreeMap;

/// What a profile holds before the call at index 0; number i is i more.
pub const OUTPUT_BEFORE: u32 = 3_000_000_000;
pub const FIRST_BEFORE: u32 = 3_100_000_000;
pub const SECOND_BEFORE: u32 = 3_200_000_000;
pub const PASSING_BEFORE: u32 = 3_300_000_000;

/// The turns of t', in running times.
pub const ARRIVAL_TURNS: [u32; 8] = [1000, 40098, 40099, 57499, 57500, 57501, 299_999, 300_000];

/// Volumes and headways at the edge of blocking.
pub const BLOCKING_EDGES: [(u32, u32); 6] = [
    (360, 10000),
    (361, 10000),
    (3600, 1000),
    (3601, 1000),
    (878, 4100),
    (879, 4100),
];

pub fn profile_before(start: u32, length: usize) -> Vec<u32> {
    (start..).take(length).collect()
}

pub fn buffer_before(length: usize) -> Vec<u8> {
    (0..length).map(|i| (i % 251) as u8).collect()
}

/// Every pair of one from each list, the second changing faster.
pub fn product<A: Copy, B: Copy>(first: &[A], second: &[B]) -> Vec<(A, B)> {
    let with = |&a| second.iter().map(move |&b| (a, b));
    first.iter().flat_map(with).collect()
}

/// The body of a case under construction, lowest byte first.
#[derive(Default)]
pub struct Body(Vec<u8>);

impl Body {
    pub fn byte(&mut self, number: u8) {
        self.0.push(number);
    }

    pub fn short(&mut self, number: usize) {
        let number = u16::try_from(number).expect("16 bits");
        self.0.extend(number.to_le_bytes());
    }

    pub fn word(&mut self, number: u32) {
        self.0.extend(number.to_le_bytes());
    }

    pub fn count(&mut self, number: usize) {
        self.word(u32::try_from(number).expect("32 bits"));
    }

    pub fn counts(&mut self, numbers: &[usize]) {
        numbers.iter().for_each(|&number| self.count(number));
    }

    pub fn long(&mut self, number: u64) {
        self.0.extend(number.to_le_bytes());
    }

    pub fn bits(&mut self, number: f64) {
        self.long(number.to_bits());
    }

    pub fn bytes(&mut self, bytes: &[u8]) {
        self.0.extend(bytes);
    }

    pub fn words(&mut self, numbers: &[u32]) {
        numbers.iter().for_each(|&number| self.word(number));
    }
}

/// A file of vectors: its cases, and how many there are of each label.
#[derive(Default)]
pub struct File {
    cases: Vec<Vec<u8>>,
    pub tally: BTreeMap<String, usize>,
}

impl File {
    pub fn push(&mut self, label: String, body: Body) {
        self.cases.push(body.0);
        *self.tally.entry(label).or_default() += 1;
    }

    pub fn len(&self) -> usize {
        self.cases.len()
    }

    pub fn is_empty(&self) -> bool {
        self.cases.is_empty()
    }

    /// The number of cases, then each case with its length.
    pub fn bytes(&self) -> Vec<u8> {
        let mut file = Body::default();
        file.count(self.cases.len());
        for case in &self.cases {
            file.count(case.len());
            file.bytes(case);
        }
        file.0
    }

    /// What a test program prints: the last case differs and no other.
    pub fn expected(&self) -> String {
        let cases = self.len();
        format!("case {} differs\n{cases} cases, 1 differs\n", cases - 1)
    }
}

/// The six files with the names of their directories.
pub fn all() -> [(&'static str, File); 6] {
    [
        ("discharge_vectors", discharge::file()),
        ("archive_vectors", archive::file()),
        ("balance_vectors", balance::file()),
        ("working_vectors", working::file()),
        ("point_vectors", points::file()),
        ("sheet_vectors", sheet::file()),
    ]
}
