//! Whole numbers from 0 up of any size, with just what exact comparison needs.

use std::cmp::Ordering;

/// A whole number from 0 up: 64-bit digits, the lowest first, the highest
/// never 0.
#[derive(Clone, Debug, PartialEq, Eq)]
pub(crate) struct Big(Vec<u64>);

impl Big {
    /// The number as a `Big`.
    pub fn new(value: u64) -> Big {
        let mut big = Big(vec![value]);
        big.trim();
        big
    }

    /// The product with a small number.
    pub fn times(&self, factor: u64) -> Big {
        let mut digits = Vec::with_capacity(self.0.len() + 1);
        let mut carry = 0u128;
        for &digit in &self.0 {
            // At most (2^64 − 1)² + 2^64 − 1, which 128 bits hold.
            let product = u128::from(digit) * u128::from(factor) + carry;
            digits.push(product as u64);
            carry = product >> 64;
        }
        digits.push(carry as u64);
        let mut big = Big(digits);
        big.trim();
        big
    }

    /// The sum with another.
    pub fn plus(&self, other: &Big) -> Big {
        let length = self.0.len().max(other.0.len());
        let mut digits = Vec::with_capacity(length + 1);
        let mut carry = 0u128;
        for i in 0..length {
            let sum = self.digit(i) + other.digit(i) + carry;
            digits.push(sum as u64);
            carry = sum >> 64;
        }
        digits.push(carry as u64);
        let mut big = Big(digits);
        big.trim();
        big
    }

    fn digit(&self, i: usize) -> u128 {
        u128::from(self.0.get(i).copied().unwrap_or(0))
    }

    fn trim(&mut self) {
        while self.0.last() == Some(&0) {
            self.0.pop();
        }
    }
}

impl Ord for Big {
    fn cmp(&self, other: &Big) -> Ordering {
        // With no leading noughts the longer number is the larger.
        let by_length = self.0.len().cmp(&other.0.len());
        by_length.then_with(|| self.0.iter().rev().cmp(other.0.iter().rev()))
    }
}

impl PartialOrd for Big {
    fn partial_cmp(&self, other: &Big) -> Option<Ordering> {
        Some(self.cmp(other))
    }
}

#[cfg(test)]
mod tests {
    use super::*;

    fn wide(value: u128) -> Big {
        let mut big = Big(vec![value as u64, (value >> 64) as u64]);
        big.trim();
        big
    }

    #[test]
    fn agrees_with_128_bits() {
        let small = [0, 1, 2, 3, 0xffff_ffff, 1 << 32, u64::MAX - 1, u64::MAX];
        for a in small {
            for b in small {
                let (p, q) = (u128::from(a), u128::from(b));
                assert_eq!(Big::new(a).times(b), wide(p * q));
                assert_eq!(Big::new(a).plus(&Big::new(b)), wide(p + q));
                assert_eq!(Big::new(a).cmp(&Big::new(b)), a.cmp(&b));
                for c in small {
                    let product = Big::new(a).times(b);
                    let expected = (p * q).cmp(&u128::from(c));
                    assert_eq!(product.cmp(&Big::new(c)), expected);
                }
            }
        }
    }

    #[test]
    fn carries_run_through_all_digits() {
        let nines = Big(vec![u64::MAX; 40]);
        let mut power = vec![0; 40];
        power.push(1);
        assert_eq!(nines.plus(&Big::new(1)), Big(power.clone()));
        assert!(nines < Big(power));
        // (2^2560 − 1) × (2^64 − 1), plus itself, is (2^2560 − 1) × 2^64.
        let mut shifted = vec![0];
        shifted.extend(vec![u64::MAX; 40]);
        assert_eq!(nines.times(u64::MAX).plus(&nines), Big(shifted));
    }

    #[test]
    fn multiplication_distributes_over_sums() {
        let (mut a, mut b) = (Big::new(0x9e37_79b9_7f4a_7c15), Big::new(3));
        for factor in 1..200u64 {
            let factor = factor.wrapping_mul(0xd1b5_4a32_d192_ed03);
            let together = a.plus(&b).times(factor);
            (a, b) = (a.times(factor), b.times(factor));
            assert_eq!(a.plus(&b), together);
            (a, b) = (b.plus(&Big::new(factor)), a);
        }
    }
}
