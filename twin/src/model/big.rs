//! Whole numbers of any size, with no more than the growth table needs.

use std::cmp::Ordering;

/// Low digits first, in base 2^32, without leading zeros.
#[derive(Clone, Debug, PartialEq, Eq)]
pub struct Big(Vec<u32>);

impl Big {
    pub fn one() -> Big {
        Big(vec![1])
    }

    pub fn times_small(&self, factor: u32) -> Big {
        self.times(&Big(vec![factor]))
    }

    pub fn times(&self, other: &Big) -> Big {
        let mut digits = vec![0u32; self.0.len() + other.0.len()];
        for (i, a) in self.0.iter().enumerate() {
            let mut carried = 0u64;
            for (j, b) in other.0.iter().enumerate() {
                let sum = digits[i + j] as u64 + *a as u64 * *b as u64 + carried;
                digits[i + j] = sum as u32;
                carried = sum >> 32;
            }
            digits[i + other.0.len()] = carried as u32;
        }
        while digits.last() == Some(&0) {
            digits.pop();
        }
        Big(digits)
    }

    pub fn power(base: u32, exponent: u32) -> Big {
        (0..exponent).fold(Big::one(), |product, _| product.times_small(base))
    }
}

impl PartialOrd for Big {
    fn partial_cmp(&self, other: &Big) -> Option<Ordering> {
        Some(self.cmp(other))
    }
}

impl Ord for Big {
    fn cmp(&self, other: &Big) -> Ordering {
        let by_length = self.0.len().cmp(&other.0.len());
        by_length.then_with(|| self.0.iter().rev().cmp(other.0.iter().rev()))
    }
}

#[cfg(test)]
mod tests {
    use super::*;

    #[test]
    fn products_and_order() {
        assert_eq!(Big::power(10, 9), Big(vec![1_000_000_000]));
        assert_eq!(Big::power(2, 64), Big(vec![0, 0, 1]));
        assert_eq!(Big::power(7, 20).times(&Big::power(7, 13)), Big::power(7, 33));
        assert!(Big::power(10, 30) > Big::power(2, 99));
        assert!(Big::power(10, 30) < Big::power(2, 100));
        assert_eq!(Big::power(3, 5).times_small(0), Big(vec![]));
        assert!(Big(vec![1, 2]) < Big(vec![0, 3]));
        assert!(Big(vec![1, 2]) < Big(vec![2, 2]));
    }
}
