//! The growth table (rule 9.3).

use std::sync::OnceLock;

use super::big::Big;
use super::Refusal;

pub const ENTRIES: usize = 500;

/// Entry n is the greatest e with e^100 x 10,000^n <= 10^900 x 10,388^n.
fn work_out() -> Vec<i128> {
    let mut left = Big::one();
    let mut right = Big::power(10, 900);
    let mut table = Vec::new();
    for n in 0..ENTRIES {
        let fits = |e: u32| Big::power(e, 100).times(&left) <= right;
        let mut e = (1e9 * 1.0388f64.powf(n as f64 / 100.0)) as u32;
        while !fits(e) {
            e -= 1;
        }
        while fits(e + 1) {
            e += 1;
        }
        table.push(e as i128);
        left = left.times_small(10_000);
        right = right.times_small(10_388);
    }
    table
}

fn table() -> &'static [i128] {
    static TABLE: OnceLock<Vec<i128>> = OnceLock::new();
    TABLE.get_or_init(work_out)
}

/// 10^9 x 1.0388^(n/100) rounded down, for n of 0 to 499.
pub fn growth(n: u32) -> Result<i128, Refusal> {
    table().get(n as usize).copied().ok_or(12)
}

#[cfg(test)]
mod tests {
    use super::*;

    #[test]
    fn the_table_ascends_and_whole_years_are_powers() {
        assert!(table().windows(2).all(|pair| pair[0] < pair[1]));
        let mut exact = (1_000_000_000i128, 1i128);
        for years in 0..5 {
            assert_eq!(growth(100 * years), Ok(exact.0 / exact.1));
            exact = (exact.0 * 10_388, exact.1 * 10_000);
        }
        assert!(growth(499).is_ok());
        assert_eq!(growth(500), Err(12));
        assert_eq!(growth(u32::MAX), Err(12));
    }
}
