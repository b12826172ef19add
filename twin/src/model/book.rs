//! The licence book (rules, section 3).

use super::log::{regime_end_in_range, LAST_REGIME_END};
use super::AMOUNT_LIMIT;

#[derive(Clone, Debug, PartialEq, Eq)]
pub struct Book {
    pub regime_end: u32,
    /// Targets for years 1 and 25, in MWh.
    pub target_1: u32,
    pub target_25: u32,
    /// Preliminary cap and floor.
    pub pcl: i64,
    pub pfl: i64,
    pub pcac: i64,
    pub pcaf: i64,
    pub orac: i64,
    pub oraf: i64,
    /// Floor factor on a miss, in ten-thousandths.
    pub miss_factor: u16,
}

impl Book {
    pub fn fresh() -> Book {
        Book {
            regime_end: LAST_REGIME_END,
            target_1: 0,
            target_25: 0,
            pcl: 83_806_402,
            pfl: 48_807_317,
            pcac: 0,
            pcaf: 0,
            orac: 0,
            oraf: 0,
            miss_factor: 0,
        }
    }

    /// PCL + PCAC + ORAC.
    pub fn cap_sum(&self) -> i128 {
        self.pcl as i128 + self.pcac as i128 + self.orac as i128
    }

    /// PFL + PCAF + ORAF.
    pub fn floor_sum(&self) -> i128 {
        self.pfl as i128 + self.pcaf as i128 + self.oraf as i128
    }

    pub fn in_range(&self) -> bool {
        let adjustments = [self.pcac, self.pcaf, self.orac, self.oraf];
        let levels = [self.pcl as i128, self.pfl as i128, self.cap_sum(), self.floor_sum()];
        regime_end_in_range(self.regime_end)
            && self.target_1 <= 20_000_000
            && self.target_25 <= 20_000_000
            && levels.iter().all(|level| (0..=AMOUNT_LIMIT).contains(level))
            && adjustments.iter().all(|a| (*a as i128).abs() <= AMOUNT_LIMIT)
            && self.miss_factor <= 10_000
    }
}

#[cfg(test)]
mod tests {
    use super::*;

    #[test]
    fn limits_on_both_sides() {
        let allowed = |allowed: bool, change: &dyn Fn(&mut Book)| {
            let mut book = Book::fresh();
            change(&mut book);
            assert_eq!(book.in_range(), allowed, "{book:?}");
        };
        allowed(true, &|_| ());
        allowed(true, &|b| b.regime_end = 12_579_841);
        allowed(false, &|b| b.regime_end = 12_579_840);
        allowed(false, &|b| b.regime_end = 13_632_481);
        allowed(true, &|b| b.target_1 = 20_000_000);
        allowed(false, &|b| b.target_1 = 20_000_001);
        allowed(false, &|b| b.target_25 = 20_000_001);
        allowed(true, &|b| b.pcl = 1_000_000_000);
        allowed(false, &|b| b.pcl = 1_000_000_001);
        allowed(true, &|b| b.pfl = 0);
        allowed(false, &|b| b.pfl = -1);
        allowed(true, &|b| b.pcac = -83_806_402);
        allowed(false, &|b| b.pcac = -83_806_403);
        allowed(true, &|b| b.oraf = 1_000_000_000 - 48_807_317);
        allowed(false, &|b| b.oraf = 1_000_000_001 - 48_807_317);
        allowed(false, &|b| {
            b.pcl = 1_000_000_000;
            b.pcac = -1_000_000_001;
            b.orac = 1;
        });
        allowed(true, &|b| {
            b.pcac = -1_000_000_000;
            b.orac = 1_000_000_000;
        });
        allowed(false, &|b| {
            b.pcac = i64::MIN;
            b.orac = i64::MAX;
        });
        allowed(true, &|b| b.miss_factor = 10_000);
        allowed(false, &|b| b.miss_factor = 10_001);
    }
}
