//! Comparing numbers, and counting the cases by the paper's number.

use std::collections::BTreeMap;
use std::fmt::Display;

/// The first difference in words, or nothing.
pub type Same = Result<(), String>;

pub fn same<T: PartialEq + Display>(what: &str, library: T, reference: T) -> Same {
    if library == reference {
        return Ok(());
    }
    Err(format!("{what}: library {library}, reference {reference}"))
}

/// Two lists, number by number.
pub fn same_list<T: PartialEq + Display>(what: &str, library: &[T], reference: &[T]) -> Same {
    same(&format!("length of {what}"), library.len(), reference.len())?;
    let pairs = library.iter().zip(reference);
    match pairs.enumerate().find(|(_, (a, b))| a != b) {
        None => Ok(()),
        Some((i, (a, b))) => same(&format!("{what}, number {i}"), a, b),
    }
}

/// A float's bits, with one pattern for every NaN.
pub fn bits(x: f64) -> u64 {
    if x.is_nan() {
        return f64::NAN.to_bits();
    }
    x.to_bits()
}

/// How many cases had each number; 0 is accepted.
#[derive(Default)]
pub struct Tally(BTreeMap<u32, usize>);

impl Tally {
    pub fn count(&mut self, number: u32) {
        *self.0.entry(number).or_default() += 1;
    }

    /// Every one of these numbers must have been met.
    pub fn met(&self, what: &str, numbers: &[u32]) -> Same {
        match numbers.iter().find(|number| !self.0.contains_key(number)) {
            None => Ok(()),
            Some(number) => Err(format!("no {what} has the number {number}")),
        }
    }

    pub fn text(&self) -> String {
        let one = |(number, count): (&u32, &usize)| format!("{number}: {count}");
        self.0.iter().map(one).collect::<Vec<_>>().join(", ")
    }
}
