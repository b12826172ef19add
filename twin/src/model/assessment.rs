//! The five-year assessment (rules, section 8).

use super::book::Book;
use super::levels::{check_book_and_log, levels};
use super::log::Log;
use super::revenue::assessed_revenue;
use super::rounding::nearest;
use super::year::{amount_in_range, pppi_in_range, Year};
use super::{Refusal, BALANCE_LIMIT};

/// One year's index and amounts.
#[derive(Clone, Copy, Debug, Default, PartialEq, Eq)]
pub struct Row {
    pub index: u32,
    pub revenue: i64,
    pub cap: i64,
    pub floor: i64,
    pub w: i64,
}

#[derive(Clone, Copy, Debug, PartialEq, Eq)]
pub struct Assessment {
    pub a: i128,
    pub c: i128,
    pub f: i128,
    pub w: i128,
    pub t: i128,
    pub adjustment: i128,
}

impl Row {
    fn in_range(&self) -> bool {
        pppi_in_range(self.index)
            && amount_in_range(self.revenue)
            && amount_in_range(self.cap)
            && amount_in_range(self.floor)
            && amount_in_range(self.w)
            && self.cap >= 0
            && self.floor >= 0
    }
}

/// A balance carried into a later year.
pub fn carry(balance: i128, index: u32, earlier_index: u32) -> i128 {
    nearest(balance * 10_388 * index as i128, 10_000 * earlier_index as i128)
}

/// The balance after the last of the rows; 11 after any year's.
fn balance(rows: &[Row; 5], amount: impl Fn(&Row) -> i64) -> Result<i128, Refusal> {
    let mut balance = 0;
    for (place, row) in rows.iter().enumerate() {
        let carried = if place == 0 { 0 } else { carry(balance, row.index, rows[place - 1].index) };
        balance = carried + amount(row) as i128;
        if balance.abs() > BALANCE_LIMIT {
            return Err(11);
        }
    }
    Ok(balance)
}

pub fn assess(rows: &[Row; 5]) -> Result<Assessment, Refusal> {
    if !rows.iter().all(Row::in_range) {
        return Err(9);
    }
    let a = balance(rows, |row| row.revenue)?;
    let c = balance(rows, |row| row.cap)?;
    let f = balance(rows, |row| row.floor)?;
    let w = balance(rows, |row| row.w)?;
    if f > c {
        return Err(10);
    }
    let t = a.max(f).min(c);
    Ok(Assessment { a, c, f, w, t, adjustment: t - a - w })
}

/// Whether the years are those of one assessment period, in order.
pub fn one_period(years: &[Year; 5]) -> bool {
    let first = years[0].number as i128;
    (first - 1) % 5 == 0
        && years
            .iter()
            .enumerate()
            .all(|(place, year)| year.number as i128 == first + place as i128)
}

/// The assessment of a period of book, five years and running log.
pub fn assess_period(book: &Book, years: &[Year; 5], log: &Log) -> Result<Assessment, Refusal> {
    assess(&rows_of_period(book, years, log)?)
}

/// The yearly amounts of a period (rule 8.5).
pub fn rows_of_period(book: &Book, years: &[Year; 5], log: &Log) -> Result<[Row; 5], Refusal> {
    check_book_and_log(book, log)?;
    if !years.iter().all(Year::in_range) || !one_period(years) {
        return Err(9);
    }
    let mut rows = [Row::default(); 5];
    for (row, year) in rows.iter_mut().zip(years) {
        let (cap, floor) = levels(book, year, log)?;
        let revenue = assessed_revenue(year)?;
        *row = Row {
            index: year.pppi,
            revenue: revenue as i64,
            cap: cap as i64,
            floor: floor as i64,
            w: year.w,
        };
    }
    Ok(rows)
}

#[cfg(test)]
mod tests {
    use super::*;
    use crate::model::year::Line;

    const MOST: i64 = 1_000_000_000;

    fn level_rows() -> [Row; 5] {
        [Row { index: 10_000, revenue: 0, cap: 10, floor: 5, w: 0 }; 5]
    }

    #[test]
    fn rows_out_of_range() {
        let refused = |change: &dyn Fn(&mut Row)| {
            for place in 0..5 {
                let mut rows = level_rows();
                change(&mut rows[place]);
                assert_eq!(assess(&rows), Err(9));
            }
        };
        refused(&|r| r.index = 4_999);
        refused(&|r| r.index = 50_001);
        refused(&|r| r.revenue = MOST + 1);
        refused(&|r| r.revenue = -MOST - 1);
        refused(&|r| r.cap = -1);
        refused(&|r| r.cap = MOST + 1);
        refused(&|r| r.floor = -1);
        refused(&|r| r.floor = MOST + 1);
        refused(&|r| r.w = i64::MIN);
    }

    #[test]
    fn balances_at_the_limit() {
        let mut rows = level_rows();
        rows[0] = Row { index: 5_000, revenue: MOST, cap: 10, floor: 5, w: 0 };
        rows[1].index = 48_133;
        let carried = carry(MOST as i128, 48_133, 5_000);
        assert_eq!(carried, 10_000_112_080);
        rows[1].revenue = -112_080;
        for row in &mut rows[2..] {
            row.index = 46_000;
            row.revenue = -MOST;
        }
        assert!(assess(&rows).is_ok());
        rows[1].revenue += 1;
        assert_eq!(assess(&rows), Err(11));
    }

    #[test]
    fn floor_above_cap_is_10_after_11() {
        let mut rows = level_rows();
        let apart = assess(&rows).map(|answer| answer.c - answer.f).unwrap() as i64;
        rows[4].floor += apart;
        assert_eq!(assess(&rows).map(|answer| answer.c - answer.f), Ok(0));
        rows[4].floor += 1;
        assert_eq!(assess(&rows), Err(10));
        rows[0] = Row { index: 5_000, w: MOST, ..rows[0] };
        rows[1].index = 50_000;
        assert_eq!(assess(&rows), Err(11));
    }

    #[test]
    fn revenue_is_held_between_floor_and_cap() {
        let held = |revenue: i64| {
            let mut rows = level_rows();
            rows[4].revenue = revenue;
            let answer = assess(&rows).unwrap();
            assert_eq!(answer.adjustment, answer.t - answer.a - answer.w);
            (answer.f, answer.t, answer.c)
        };
        let (f, t, c) = held(0);
        assert_eq!(t, f);
        assert_eq!(held(f as i64 + 1).1, f + 1);
        assert_eq!(held(c as i64).1, c);
        assert_eq!(held(c as i64 + 1).1, c);
    }

    fn five_years(first: u8) -> [Year; 5] {
        std::array::from_fn(|place| Year { number: first + place as u8, ..Year::fresh() })
    }

    #[test]
    fn a_period_is_five_years_in_order() {
        let (book, log) = (Book::fresh(), Log::fresh());
        for first in 0..=22 {
            let answer = assess_period(&book, &five_years(first), &log);
            assert_eq!(answer.is_ok(), [1, 6, 11, 16, 21].contains(&first));
            if answer.is_err() {
                assert_eq!(answer, Err(9));
            }
        }
        let mut years = five_years(1);
        years.swap(1, 2);
        assert_eq!(assess_period(&book, &years, &log), Err(9));
    }

    #[test]
    fn a_9_in_any_year_comes_before_an_11_in_any_other() {
        let (book, log) = (Book::fresh(), Log::fresh());
        let mut years = five_years(6);
        years[0].lines[0] = Line { kind: 1, currency: 0, amount: MOST };
        years[0].lines[1] = Line { kind: 3, currency: 0, amount: MOST };
        years[0].line_count = 2;
        assert_eq!(assess_period(&book, &years, &log), Err(11));
        years[4].rate = 0;
        assert_eq!(assess_period(&book, &years, &log), Err(9));
        let mut broken = log.clone();
        broken.slots[0].mw = 1;
        assert_eq!(assess_period(&book, &years, &broken), Err(1));
        broken.regime_end -= 1;
        assert_eq!(assess_period(&book, &years, &broken), Err(8));
    }
}
