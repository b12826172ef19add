//! The figures of the rules, section 13.

use super::assessment::{assess, carry, Assessment, Row};
use super::book::Book;
use super::calendar::year_minutes;
use super::growth::growth;
use super::levels::{availability, levels, target_met};
use super::log::{Log, Slot};
use super::settlement::{gap, payment, Period};
use super::year::Year;

/// A log with one outage of 1,000 MW from a year's first minute.
fn outage_of(year: u8, minutes: u32) -> Log {
    let mut log = Log::fresh();
    let (first, _) = year_minutes(year, log.regime_end).unwrap();
    let start = first as u32;
    log.enter(Slot { start, end: start + minutes, mw: 1_000, cause: 1 }).unwrap();
    log
}

#[test]
fn the_target_of_2021_and_2020() {
    let book = Book::fresh();
    assert_eq!(target_met(&book, &outage_of(3, 104_832), 3), Ok(true));
    assert_eq!(target_met(&book, &outage_of(3, 104_833), 3), Ok(false));
    assert_eq!(target_met(&book, &outage_of(2, 106_272), 2), Ok(true));
    assert_eq!(target_met(&book, &outage_of(2, 106_273), 2), Ok(false));
    assert_eq!(availability(&book, &outage_of(3, 104_832), 3), Ok(7_012_800 * 60));
}

#[test]
fn the_levels() {
    let year = Year { aic: 10_200, pppi: 11_000, ..Year::fresh() };
    assert_eq!(levels(&Book::fresh(), &year, &Log::fresh()), Ok((94_030_783, 53_688_049)));
    let cap = |pcl: i64, aic: u16, pppi: u32| {
        let (book, year) = (Book { pcl, ..Book::fresh() }, Year { aic, pppi, ..Year::fresh() });
        levels(&book, &year, &Log::fresh()).map(|(cap, _)| cap)
    };
    assert_eq!(cap(83_806_406, 10_200, 11_000), Ok(94_030_788));
    assert_eq!(cap(961_538_462, 10_000, 10_400), Ok(1_000_000_000));
    assert_eq!(cap(970_873_787, 10_300, 10_000), Err(11));
    assert_eq!(cap(666_666_667, 15_000, 10_000), Ok(1_000_000_000));
}

#[test]
fn the_carries() {
    assert_eq!(carry(1_250, 10_000, 10_000), 1_298);
    assert_eq!(carry(-1_250, 10_000, 10_000), -1_298);
    assert_eq!(carry(50_000_000, 10_200, 10_000), 52_978_800);
}

#[test]
fn the_five_years() {
    let row = Row { index: 10_000, revenue: 1_000_000, cap: 900_000, floor: 500_000, w: 0 };
    let mut rows = [row; 5];
    rows[1].w = -100_000;
    let Assessment { a, c, f, w, t, adjustment } = assess(&rows).unwrap();
    assert_eq!((a, c, w, adjustment), (5_403_349, 4_863_014, -112_098, -428_237));
    assert_eq!(t, c);
    assert!(f < c);
}

#[test]
fn the_growth_entries() {
    assert_eq!(growth(0), Ok(1_000_000_000));
    assert_eq!(growth(100), Ok(1_038_800_000));
    assert_eq!(growth(200), Ok(1_079_105_440));
    assert_eq!(growth(300), Ok(1_120_974_731));
}

#[test]
fn the_gaps() {
    let first = Period { first: 44_927, last: 45_291 };
    assert_eq!(gap(first, Period { first: 45_383, last: 45_747 }), Ok(125));
    let later = |g: u32| Period { first: first.first, last: first.last + g };
    assert_eq!(gap(first, later(3_648)), Ok(499));
    assert_eq!(gap(first, later(3_649)), Err(12));
}

#[test]
fn the_payment() {
    assert_eq!(payment(-10_000_001, 100), Ok(-10_388_001));
}
