//! Settlement and reconciliation (rules, section 9).

use super::growth::growth;
use super::rounding::nearest;
use super::{Refusal, BALANCE_LIMIT};

/// The days that a period may have (rule 9.1).
pub const FIRST_DAY: i128 = 61;
pub const LAST_DAY: i128 = 73_050;

/// A period's first and last day, as spreadsheet day numbers.
#[derive(Clone, Copy, Debug, Default, PartialEq, Eq)]
pub struct Period {
    pub first: u32,
    pub last: u32,
}

impl Period {
    pub fn in_range(&self) -> bool {
        let known = |day: u32| (FIRST_DAY..=LAST_DAY).contains(&(day as i128));
        known(self.first) && known(self.last) && self.first <= self.last
    }

    /// Twice the median, so that no half day is lost.
    pub fn sum(&self) -> i128 {
        self.first as i128 + self.last as i128
    }
}

/// The gap between two periods in hundredths of a year.
pub fn gap(earlier: Period, later: Period) -> Result<u32, Refusal> {
    if !earlier.in_range() || !later.in_range() {
        return Err(12);
    }
    let g = later.sum() - earlier.sum();
    let n = nearest(200 * g, 1_461);
    if (0..=499).contains(&n) {
        Ok(n as u32)
    } else {
        Err(12)
    }
}

/// The magnitude grown and rounded down, its sign restored.
fn grown(amount: i128, entry: i128) -> Result<i128, Refusal> {
    if amount.abs() > BALANCE_LIMIT {
        return Err(11);
    }
    Ok(amount.signum() * (amount.abs() * entry / 1_000_000_000))
}

pub fn payment(amount: i64, n: u32) -> Result<i128, Refusal> {
    grown(amount as i128, growth(n)?)
}

pub fn settle(adjustment: i64, earlier: Period, later: Period) -> Result<i128, Refusal> {
    payment(adjustment, gap(earlier, later)?)
}

/// The same to final less provisional, with the later gap.
pub fn reconcile(
    final_amount: i64,
    provisional: i64,
    earlier: Period,
    later: Period,
) -> Result<i128, Refusal> {
    let entry = growth(gap(earlier, later)?)?;
    grown(final_amount as i128 - provisional as i128, entry)
}

#[cfg(test)]
mod tests {
    use super::*;

    fn period(first: u32, last: u32) -> Period {
        Period { first, last }
    }

    /// The gap where the later sum is the earlier sum plus g.
    fn gap_of(g: i128) -> Result<u32, Refusal> {
        let sum = 80_000 + g;
        let first = sum / 2;
        gap(period(40_000, 40_000), period(first as u32, (sum - first) as u32))
    }

    #[test]
    fn n_on_both_sides() {
        for g in -3..=3 {
            assert_eq!(gap_of(g), Ok(0));
        }
        assert_eq!(gap_of(4), Ok(1));
        assert_eq!(gap_of(-4), Err(12));
        assert_eq!(gap_of(3_648), Ok(499));
        assert_eq!(gap_of(3_649), Err(12));
        assert!((0..1_461).all(|g| (2 * 200 * g) % 1_461 != 0 || g == 0));
    }

    #[test]
    fn days_on_both_sides() {
        assert_eq!(gap(period(61, 61), period(61, 61)), Ok(0));
        assert_eq!(gap(period(60, 61), period(61, 61)), Err(12));
        assert_eq!(gap(period(73_050, 73_050), period(73_050, 73_050)), Ok(0));
        assert_eq!(gap(period(73_050, 73_050), period(73_050, 73_051)), Err(12));
        assert_eq!(gap(period(71, 70), period(70, 70)), Err(12));
        assert_eq!(gap(period(70, 70), period(71, 70)), Err(12));
        assert_eq!(gap(period(0, u32::MAX), period(0, u32::MAX)), Err(12));
    }

    #[test]
    fn payments_on_both_sides() {
        let most = 10_000_000_000;
        assert_eq!(payment(most, 0), Ok(most as i128));
        assert_eq!(payment(-most, 100), Ok(-10_388_000_000));
        assert_eq!(payment(most + 1, 0), Err(11));
        assert_eq!(payment(i64::MIN, 0), Err(11));
        assert_eq!(payment(i64::MIN, 500), Err(12));
        assert_eq!(payment(0, 499), Ok(0));
        assert_eq!(payment(-1, 499), Ok(-1));
    }

    #[test]
    fn reconciling_extremes() {
        let day = period(50_000, 50_000);
        assert_eq!(reconcile(i64::MAX, i64::MIN, day, day), Err(11));
        assert_eq!(reconcile(i64::MIN, i64::MAX, day, day), Err(11));
        assert_eq!(reconcile(i64::MIN, i64::MIN, day, day), Ok(0));
        assert_eq!(reconcile(i64::MAX, i64::MAX - 10_000_000_000, day, day), Ok(10_000_000_000));
        assert_eq!(reconcile(i64::MAX, i64::MAX - 10_000_000_001, day, day), Err(11));
        assert_eq!(settle(10_000_000_001, day, period(1, 1)), Err(12));
        assert_eq!(settle(10_000_000_001, day, day), Err(11));
    }
}
