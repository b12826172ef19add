//! Availability, the target, cap and floor (rules, sections 5 and 6).

use super::book::Book;
use super::calendar::year_minutes;
use super::log::Log;
use super::rounding::nearest;
use super::year::Year;
use super::{Refusal, AMOUNT_LIMIT};

/// 8 before 1: the book and the two regime ends, then the log.
pub fn check_book_and_log(book: &Book, log: &Log) -> Result<(), Refusal> {
    if !book.in_range() || book.regime_end != log.regime_end {
        return Err(8);
    }
    if !log.keeps_rules() {
        return Err(1);
    }
    Ok(())
}

/// 1,000 times the year's minutes less its lost energy.
fn availability_of(log: &Log, number: u8) -> Result<i128, Refusal> {
    let (first, end) = year_minutes(number, log.regime_end)?;
    Ok(1_000 * (end - first) - log.lost_between(first, end))
}

/// The target in MWh; years 1 and 25 have theirs in the book.
fn target(book: &Book, number: u8) -> i128 {
    match number {
        1 => book.target_1 as i128,
        25 => book.target_25 as i128,
        _ => 7_012_800,
    }
}

pub fn availability(book: &Book, log: &Log, number: u8) -> Result<i128, Refusal> {
    check_book_and_log(book, log)?;
    availability_of(log, number)
}

/// Equality meets the target.
pub fn target_met(book: &Book, log: &Log, number: u8) -> Result<bool, Refusal> {
    Ok(availability(book, log, number)? >= target(book, number) * 60)
}

/// The exact product over 10^12, rounded once (rule 6.2).
fn level(part_year: u16, sum: i128, factor: i128, pppi: u32) -> i128 {
    nearest(part_year as i128 * sum * factor * pppi as i128, 1_000_000_000_000)
}

/// Cap and floor of a year, the target tested on the running log.
pub fn levels(book: &Book, year: &Year, log: &Log) -> Result<(i128, i128), Refusal> {
    check_book_and_log(book, log)?;
    if !year.in_range() {
        return Err(9);
    }
    let aif = if target_met(book, log, year.number)? || year.mark {
        10_000
    } else {
        book.miss_factor as i128
    };
    let cap = level(year.pyc, book.cap_sum(), year.aic as i128, year.pppi);
    let floor = level(year.pyf, book.floor_sum(), aif, year.pppi);
    if cap > AMOUNT_LIMIT || floor > AMOUNT_LIMIT {
        return Err(11);
    }
    Ok((cap, floor))
}

#[cfg(test)]
mod tests {
    use super::*;
    use crate::model::log::Slot;

    #[test]
    fn order_of_refusals() {
        let (book, log, year) = (Book::fresh(), Log::fresh(), Year::fresh());
        let mut broken = log.clone();
        broken.count = 401;
        let mut short = log.clone();
        short.regime_end = 13_632_479;
        let mut bad_year = year.clone();
        bad_year.rate = 0;
        let mut bad_book = book.clone();
        bad_book.miss_factor = 10_001;
        assert_eq!(availability(&bad_book, &broken, 0), Err(8));
        assert_eq!(availability(&book, &short, 0), Err(8));
        assert_eq!(availability(&book, &broken, 0), Err(1));
        assert_eq!(availability(&book, &log, 0), Err(9));
        assert_eq!(target_met(&book, &log, 26), Err(9));
        assert_eq!(levels(&book, &bad_year, &broken), Err(1));
        assert_eq!(levels(&book, &bad_year, &log), Err(9));
        assert!(levels(&book, &year, &log).is_ok());
    }

    #[test]
    fn the_finished_level_is_limited() {
        let (mut book, log, mut year) = (Book::fresh(), Log::fresh(), Year::fresh());
        book.pcl = 1_000_000_000;
        year.aic = 20_000;
        year.pppi = 5_000;
        assert_eq!(levels(&book, &year, &log).unwrap().0, 1_000_000_000);
        year.pppi = 5_001;
        assert_eq!(levels(&book, &year, &log), Err(11));
        year.aic = 0;
        book.pfl = 1_000_000_000;
        year.pppi = 10_000;
        assert_eq!(levels(&book, &year, &log), Ok((0, 1_000_000_000)));
        year.pppi = 10_001;
        assert_eq!(levels(&book, &year, &log), Err(11));
    }

    /// The cap of year 1 at a sum, PYC, AIC and PPPI; the floor is 0.
    fn cap(pcl: i64, pyc: u16, aic: u16, pppi: u32) -> Result<i128, Refusal> {
        let book = Book { pcl, pfl: 0, ..Book::fresh() };
        let year = Year { pyc, aic, pppi, ..Year::fresh() };
        levels(&book, &year, &Log::fresh()).map(|(cap, _)| cap)
    }

    /// The floor of year 1 at a sum, PYF, AIF and PPPI, the target missed; the
    /// cap is 0.
    fn floor(pfl: i64, pyf: u16, aif: u16, pppi: u32) -> Result<i128, Refusal> {
        let missed = Book { target_1: 20_000_000, miss_factor: aif, ..Book::fresh() };
        let book = Book { pcl: 0, pfl, ..missed };
        let year = Year { pyf, pppi, ..Year::fresh() };
        levels(&book, &year, &Log::fresh()).map(|(_, floor)| floor)
    }

    #[test]
    fn a_level_is_rounded_once() {
        // 1.02 x 1.1 is 1.122: 83,806,406 + 10,224,381.532.
        assert_eq!(cap(83_806_406, 10_000, 10_200, 11_000), Ok(94_030_788));
        // 0.5 x 1.5 is 0.75. 0.5 x 2 x 5 is 5, and 0.4999 x 10 is 4.999.
        assert_eq!(cap(1, 5_000, 15_000, 10_000), Ok(1));
        assert_eq!(cap(1, 5_000, 20_000, 50_000), Ok(5));
        assert_eq!(cap(1, 4_999, 20_000, 50_000), Ok(5));
        // 48,807,317 x 0.55 is 26,844,024.35. 0.4999 x 5 is 2.4995.
        assert_eq!(floor(48_807_317, 10_000, 5_000, 11_000), Ok(26_844_024));
        assert_eq!(floor(1, 4_999, 10_000, 50_000), Ok(2));
        assert_eq!(floor(1, 10_000, 4_999, 50_000), Ok(2));
    }

    #[test]
    fn halves_of_a_whole_product() {
        // 1, 3, 5, 7 and 99,999 at a half; 99,999 x 0.5 is 49,999.5.
        for (sum, level) in [(1, 0), (3, 2), (5, 2), (7, 4), (99_999, 50_000)] {
            assert_eq!(cap(sum, 10_000, 10_000, 5_000), Ok(level));
            assert_eq!(cap(sum, 2_500, 20_000, 10_000), Ok(level));
            assert_eq!(floor(sum, 10_000, 10_000, 5_000), Ok(level));
            assert_eq!(floor(sum, 10_000, 2_500, 20_000), Ok(level));
        }
        // 0.9999 x 1.0001 is 0.99999999, so each lies below its half.
        for (sum, level) in [(1, 0), (3, 1), (5, 2), (99_999, 49_999)] {
            assert_eq!(cap(sum, 9_999, 10_001, 5_000), Ok(level));
            assert_eq!(floor(sum, 9_999, 5_000, 10_001), Ok(level));
        }
    }

    #[test]
    fn parts_of_the_largest_products() {
        // 9,999 x 10,001 is 10^8 - 1; times 10^8 + 1 it is 10^16 - 1, and times
        // 50,000 over 10^12 it is 500,000,000 less 0.00000005.
        assert_eq!(cap(100_000_001, 9_999, 10_001, 50_000), Ok(500_000_000));
        // 500,000,005 less its 10,000th part, 50,000.0005, is 499,950,004.9995.
        assert_eq!(floor(100_000_001, 9_999, 10_000, 50_000), Ok(499_950_005));
        assert_eq!(cap(1_000_000_000, 1_000, 20_000, 50_000), Ok(1_000_000_000));
        assert_eq!(cap(1_000_000_000, 1_001, 20_000, 50_000), Err(11));
        assert_eq!(cap(1_000_000_000, 10_000, 20_000, 50_000), Err(11));
        assert_eq!(floor(1_000_000_000, 10_000, 10_000, 50_000), Err(11));
    }

    #[test]
    fn the_limit_is_of_the_rounded_level() {
        // 961,538,462 x 1.04 is 10^9 + 0.48, and each pound more adds 1.04.
        assert_eq!(cap(961_538_462, 10_000, 10_000, 10_400), Ok(1_000_000_000));
        assert_eq!(cap(961_538_463, 10_000, 10_000, 10_400), Err(11));
        assert_eq!(floor(961_538_462, 10_000, 10_000, 10_400), Ok(1_000_000_000));
        assert_eq!(floor(961_538_463, 10_000, 10_000, 10_400), Err(11));
        // 666,666,667 x 1.5 is 10^9 + 0.5; 645,161,290 x 1.55 is 10^9 - 0.5.
        assert_eq!(cap(666_666_667, 10_000, 15_000, 10_000), Ok(1_000_000_000));
        assert_eq!(cap(666_666_668, 10_000, 15_000, 10_000), Err(11));
        assert_eq!(floor(666_666_667, 10_000, 5_000, 30_000), Ok(1_000_000_000));
        assert_eq!(floor(666_666_668, 10_000, 5_000, 30_000), Err(11));
        assert_eq!(cap(645_161_290, 10_000, 10_000, 15_500), Ok(1_000_000_000));
        assert_eq!(floor(645_161_290, 5_000, 10_000, 31_000), Ok(1_000_000_000));
        // 1.0521 x 1.1881 and 0.3507 x 3.5643 are 1.25000001: 800,000,000 x it is
        // 10^9 + 8, six less 10^9 + 0.49999994, five less 10^9 + 1.74999995.
        assert_eq!(cap(799_999_994, 10_000, 10_521, 11_881), Ok(1_000_000_000));
        assert_eq!(cap(799_999_995, 10_000, 10_521, 11_881), Err(11));
        assert_eq!(floor(799_999_994, 10_000, 3_507, 35_643), Ok(1_000_000_000));
        assert_eq!(floor(799_999_995, 10_000, 3_507, 35_643), Err(11));
    }

    #[test]
    fn the_factor_on_a_miss() {
        let (mut book, mut log, mut year) = (Book::fresh(), Log::fresh(), Year::fresh());
        book.target_1 = 8_040_000;
        book.miss_factor = 2_500;
        assert_eq!(availability(&book, &log, 1), Ok(482_400_000));
        assert_eq!(levels(&book, &year, &log).unwrap().1, 48_807_317);
        log.hold(&[Slot { start: 0, end: 1, mw: 1, cause: 1 }]);
        assert_eq!(levels(&book, &year, &log).unwrap().1, 12_201_829);
        year.mark = true;
        assert_eq!(levels(&book, &year, &log).unwrap().1, 48_807_317);
    }
}
