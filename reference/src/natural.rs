//! Whole numbers of any size, with what the exact flows need.

use std::cmp::Ordering;

/// Digits to the base 2^64, lowest first, the highest not 0.
#[derive(Clone, Debug, PartialEq, Eq, Default)]
pub struct Natural(Vec<u64>);

/// The low and the high digit of two.
fn split(made: u128) -> (u64, u64) {
    (made as u64, (made >> 64) as u64)
}

impl Natural {
    pub fn zero() -> Natural {
        Natural(Vec::new())
    }

    pub fn one() -> Natural {
        Natural(vec![1])
    }

    /// Multiplies itself by a factor.
    pub fn multiply(&mut self, factor: u64) {
        if factor == 0 {
            self.0.clear();
        }
        let mut carry = 0;
        for digit in &mut self.0 {
            let made = u128::from(*digit) * u128::from(factor) + u128::from(carry);
            (*digit, carry) = split(made);
        }
        self.push(carry);
    }

    /// Adds `other` times a factor to itself.
    pub fn add_times(&mut self, other: &Natural, factor: u64) {
        self.add_times_at(0, other, factor);
    }

    /// Adds `other` times a factor, `at` digits up.
    fn add_times_at(&mut self, at: usize, other: &Natural, factor: u64) {
        if factor == 0 || other.0.is_empty() {
            return;
        }
        let end = at + other.0.len();
        if self.0.len() < end {
            self.0.resize(end, 0);
        }
        let mut carry = 0;
        let (low, high) = self.0.split_at_mut(end);
        for (digit, &more) in low[at..].iter_mut().zip(&other.0) {
            // (2^64-1)·(2^64-1) + 2·(2^64-1) is 2^128-1
            let made = u128::from(more) * u128::from(factor);
            (*digit, carry) = split(made + u128::from(*digit) + u128::from(carry));
        }
        for digit in high {
            (*digit, carry) = split(u128::from(*digit) + u128::from(carry));
            if carry == 0 {
                break;
            }
        }
        self.push(carry);
    }

    /// A new highest digit, unless it is 0.
    fn push(&mut self, digit: u64) {
        if digit > 0 {
            self.0.push(digit);
        }
    }

    /// Itself times a factor.
    pub fn times(&self, factor: u64) -> Natural {
        let mut product = self.clone();
        product.multiply(factor);
        product
    }

    pub fn plus(&self, other: &Natural) -> Natural {
        let mut sum = self.clone();
        sum.add_times(other, 1);
        sum
    }

    /// The product of two.
    pub fn product(&self, other: &Natural) -> Natural {
        let mut product = Natural::zero();
        for (at, &digit) in self.0.iter().enumerate() {
            product.add_times_at(at, other, digit);
        }
        product
    }

    /// Itself less `other`, which is not above it.
    pub fn minus(&self, other: &Natural) -> Natural {
        assert!(other <= self, "the difference is not below 0");
        let mut digits = self.0.clone();
        let mut borrow = false;
        for (at, digit) in digits.iter_mut().enumerate() {
            let less = other.0.get(at).copied().unwrap_or(0);
            let (made, under) = digit.overflowing_sub(less);
            let (made, again) = made.overflowing_sub(u64::from(borrow));
            *digit = made;
            borrow = under || again;
        }
        while digits.last() == Some(&0) {
            digits.pop();
        }
        Natural(digits)
    }
}

impl PartialOrd for Natural {
    fn partial_cmp(&self, other: &Natural) -> Option<Ordering> {
        Some(self.cmp(other))
    }
}

impl Ord for Natural {
    fn cmp(&self, other: &Natural) -> Ordering {
        let by_length = self.0.len().cmp(&other.0.len());
        by_length.then_with(|| self.0.iter().rev().cmp(other.0.iter().rev()))
    }
}

#[cfg(test)]
mod tests {
    use super::Natural;
    use crate::random::Random;

    /// 2^128 - 1 in two ways.
    #[test]
    fn small_sums_and_products() {
        let product = Natural::one().times(u64::MAX).times(u64::MAX);
        let twice = Natural::one().times(u64::MAX).times(2);
        let most = product.plus(&twice);
        assert_eq!(most, Natural(vec![u64::MAX, u64::MAX]));
        let more = most.plus(&Natural::one());
        assert_eq!(more, Natural(vec![0, 0, 1]));
        assert!(product < most && most < more);
        assert!(twice < product && Natural::zero() < Natural::one());
        assert_eq!(product.times(0), Natural::zero());
        assert_eq!(product.plus(&Natural::zero()), product);
        assert_eq!(more.minus(&Natural::one()), most);
        assert_eq!(most.minus(&most), Natural::zero());
        assert_eq!(most.product(&Natural::zero()), Natural::zero());
    }

    /// Some digits, many of them all ones or none, so that carries run on.
    fn random_natural(random: &mut Random) -> Natural {
        let mut digits: Vec<u64> = (0..random.below(6))
            .map(|_| match random.below(3) {
                0 => 0,
                1 => u64::MAX,
                _ => random.draw(),
            })
            .collect();
        digits.push(random.draw() | 1);
        Natural(digits)
    }

    /// (a + b)·c is a·c + b·c, and less b·c it is a·c; digits and whole factors make the same product.
    #[test]
    fn products_and_differences() {
        let mut random = Random::new(91);
        for _ in 0..2000 {
            let [a, b, c] = [(); 3].map(|_| random_natural(&mut random));
            let (ac, bc) = (a.product(&c), b.product(&c));
            let whole = a.plus(&b).product(&c);
            assert_eq!(whole, ac.plus(&bc));
            assert_eq!(whole.minus(&bc), ac);
            assert_eq!(ac, c.product(&a));
            assert_eq!(a.product(&Natural(vec![7])), a.times(7));
            let mut sum = bc.clone();
            sum.add_times(&a, 9);
            assert_eq!(sum, bc.plus(&a.times(9)));
        }
    }

    #[test]
    #[should_panic(expected = "not below 0")]
    fn no_difference_below_0() {
        Natural::one().minus(&Natural::one().times(2));
    }
}
