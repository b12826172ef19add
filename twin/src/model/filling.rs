//! A workbook filled from five returns, and the text that `workbook` prints
//! (rules, section 20).

use super::assessment::{assess, one_period, rows_of_period};
use super::book::Book;
use super::log::Log;
use super::workbook::{export, print_cell, Cell, WorkbookPeriod, AMOUNTS, CELLS};
use super::year::Year;
use super::yearly_return::{number, read};
use super::Refusal;

/// What `workbook` reads (rule 20.1).
struct Input {
    first: u32,
    last: u32,
    years: [Year; 5],
}

/// Takes so many bytes from the front; none where there are fewer.
fn take<'a>(bytes: &mut &'a [u8], count: usize) -> Option<&'a [u8]> {
    let (taken, left) = bytes.split_at_checked(count)?;
    *bytes = left;
    Some(taken)
}

/// A return behind its length in two bytes.
fn take_year(bytes: &mut &[u8]) -> Option<Year> {
    let length = number(take(bytes, 2)?) as usize;
    read(take(bytes, length)?).ok()
}

/// The whole input; none where it is not two days and the five returns of one
/// period, in order.
fn read_input(mut bytes: &[u8]) -> Option<Input> {
    let first = number(take(&mut bytes, 4)?) as u32;
    let last = number(take(&mut bytes, 4)?) as u32;
    let mut years = Vec::new();
    for _ in 0..5 {
        years.push(take_year(&mut bytes)?);
    }
    let years: [Year; 5] = years.try_into().ok()?;
    (bytes.is_empty() && one_period(&years)).then_some(Input { first, last, years })
}

/// The running log: every outage of the returns entered, in order.
fn running_log(years: &[Year; 5]) -> Result<Log, Refusal> {
    let mut log = Log::fresh();
    for outage in years.iter().flat_map(|year| year.log.entries()) {
        log.enter(*outage)?;
    }
    Ok(log)
}

/// The period's amounts in the order of their cells, assessed on the fresh book.
fn amounts(years: &[Year; 5], log: &Log) -> Result<[i64; AMOUNTS], Refusal> {
    let rows = rows_of_period(&Book::fresh(), years, log)?;
    let answer = assess(&rows)?;
    let mut amounts = [0; AMOUNTS];
    for (cells, row) in amounts.chunks_mut(4).zip(&rows) {
        cells.copy_from_slice(&[row.revenue, row.cap, row.floor, row.w]);
    }
    let of_the_period = [answer.a, answer.c, answer.f, answer.w, answer.adjustment];
    amounts[20..].copy_from_slice(&of_the_period.map(|amount| amount as i64));
    Ok(amounts)
}

/// The cells of a period from its two days and five returns. The first of the
/// four steps that refuses decides (rule 20.3).
pub fn fill(bytes: &[u8]) -> Result<[Cell; CELLS], Refusal> {
    let input = read_input(bytes).ok_or(13)?;
    let log = running_log(&input.years)?;
    let amounts = amounts(&input.years, &log)?;
    export(&amounts, &WorkbookPeriod::make(input.first, input.last)?)
}

/// Of the input's bytes: a line for each cell, or one line where it is refused.
/// All bytes count, though `workbook` stops reading after 40,979.
pub fn text(bytes: &[u8]) -> String {
    match fill(bytes) {
        Ok(cells) => (0..).zip(&cells).map(|(at, cell)| print_cell(at, cell).unwrap()).collect(),
        Err(refusal) => format!("refused {refusal}\n"),
    }
}

#[cfg(test)]
mod tests {
    use super::*;
    use crate::generate::Generator;
    use crate::model::log::Slot;
    use crate::model::year::Line;
    use crate::model::yearly_return::{write, MOST_BYTES};

    const MOST: i64 = 1_000_000_000;

    /// The years of a period as they are fresh.
    fn years(first: u8) -> [Year; 5] {
        std::array::from_fn(|place| Year { number: first + place as u8, ..Year::fresh() })
    }

    fn joined(days: (u32, u32), returns: &[Vec<u8>]) -> Vec<u8> {
        let mut bytes = [days.0.to_be_bytes(), days.1.to_be_bytes()].concat();
        for one in returns {
            bytes.extend((one.len() as u16).to_be_bytes());
            bytes.extend(one);
        }
        bytes
    }

    fn returns(years: &[Year; 5]) -> Vec<Vec<u8>> {
        years.iter().map(|year| write(year, MOST_BYTES).unwrap()).collect()
    }

    /// The input of these years and the days of 2023.
    fn input(years: &[Year; 5]) -> Vec<u8> {
        joined((44_927, 45_291), &returns(years))
    }

    fn refused(years: &[Year; 5]) -> Option<Refusal> {
        fill(&input(years)).err()
    }

    /// Five years whose returns have these outages: the place of the year, start
    /// and end. Two of them together lose 1,002 MW.
    fn years_with(outages: &[(usize, u32, u32)]) -> [Year; 5] {
        let mut years = years(1);
        for (place, year) in years.iter_mut().enumerate() {
            let own = outages.iter().filter(|outage| outage.0 == place);
            let own = own.map(|&(_, start, end)| Slot { start, end, mw: 501, cause: 1 });
            let own: Vec<Slot> = own.collect();
            year.log.hold(&own);
        }
        years
    }

    /// So many outages of a minute, from a minute on.
    fn minutes(start: u32, count: u32) -> Vec<Slot> {
        (start..start + count)
            .map(|start| Slot { start, end: start + 1, mw: 1, cause: 1 })
            .collect()
    }

    #[test]
    fn five_fresh_years() {
        // The published levels in each year. C after each: 83,806,402, 170,864,492,
        // 261,300,436, 355,245,295, 452,835,214. F: 48,807,317, 99,508,358,
        // 152,176,599, 206,888,368, 263,722,954. W from year 2 on as in rule 13.4.
        let mut years = years(1);
        years[1].w = -100_000;
        let expected =
            "revenue 1,0\ncap 1,83806402\nfloor 1,48807317\nwithin-period adjustment 1,\n\
             revenue 2,0\ncap 2,83806402\nfloor 2,48807317\nwithin-period adjustment 2,-100000\n\
             revenue 3,0\ncap 3,83806402\nfloor 3,48807317\nwithin-period adjustment 3,\n\
             revenue 4,0\ncap 4,83806402\nfloor 4,48807317\nwithin-period adjustment 4,\n\
             revenue 5,0\ncap 5,83806402\nfloor 5,48807317\nwithin-period adjustment 5,\n\
             A,0\nC,452835214\nF,263722954\nW,-112098\nadjustment,263835052\n\
             first day,44927\nlast day,45291\nmedian,45109\n";
        assert_eq!(text(&input(&years)), expected);
        assert_eq!(text(&[]), "refused 13\n");
    }

    #[test]
    fn a_first_year_that_leaves_its_factors_out() {
        // 335 days of 365: 83,806,402 x 0.9178 is 76,917,515.7556, 48,807,317 x
        // 0.9178 is 44,795,355.5426.
        let mut filed = returns(&years(1));
        filed[0].truncate(23);
        let cells = fill(&joined((61, 61), &filed)).unwrap();
        assert_eq!(cells[1..3], [Cell::Number(76_917_516.0), Cell::Number(44_795_356.0)]);
        assert_eq!(cells[5..7], [Cell::Number(83_806_402.0), Cell::Number(48_807_317.0)]);
        let mut last = returns(&years(21));
        assert!(fill(&joined((61, 61), &last)).is_ok());
        last[4].truncate(23);
        assert_eq!(fill(&joined((61, 61), &last)), Err(13));
    }

    #[test]
    fn every_period() {
        for first in [1, 6, 11, 16, 21] {
            assert_eq!(refused(&years(first)), None);
        }
        for first in [2, 5, 7, 20] {
            assert_eq!(refused(&years(first)), Some(13));
        }
        let mut turned = years(6);
        turned.swap(1, 2);
        assert_eq!(refused(&turned), Some(13));
        let mut twice = years(6);
        twice[4] = twice[3].clone();
        assert_eq!(refused(&twice), Some(13));
        let mut other = years(6);
        other[2].number = 13;
        assert_eq!(refused(&other), Some(13));
    }

    #[test]
    fn an_input_is_taken_whole() {
        let bytes = input(&years(1));
        // Year 1 has its factors written out.
        assert_eq!(bytes.len(), 8 + 5 * 25 + 7);
        for length in 0..bytes.len() {
            assert_eq!(fill(&bytes[..length]), Err(13), "{length}");
        }
        assert_eq!(fill(&[&bytes[..], &[0]].concat()), Err(13));
        let mut returns = returns(&years(1));
        assert!(fill(&joined((61, 61), &returns)).is_ok());
        returns.push(returns[4].clone());
        assert_eq!(fill(&joined((61, 61), &returns)), Err(13));
        returns.truncate(4);
        assert_eq!(fill(&joined((61, 61), &returns)), Err(13));
    }

    #[test]
    fn lengths_and_refused_returns() {
        for place in 0..5 {
            let mut wrong = returns(&years(1));
            wrong[place].push(0);
            assert_eq!(fill(&joined((61, 61), &wrong)), Err(13));
            wrong[place].truncate(22);
            assert_eq!(fill(&joined((61, 61), &wrong)), Err(13));
            wrong[place].clear();
            assert_eq!(fill(&joined((61, 61), &wrong)), Err(13));
            wrong[place].resize(8_193, 0);
            assert_eq!(fill(&joined((61, 61), &wrong)), Err(13));
        }
        let mut bytes = input(&years(1));
        bytes[9] -= 1;
        assert_eq!(fill(&bytes), Err(13));
        bytes[9] += 2;
        assert_eq!(fill(&bytes), Err(13));
    }

    #[test]
    fn no_input_past_40978_bytes_is_accepted() {
        let mut generator = Generator::new(17);
        for _ in 0..300 {
            let mut bytes = generator.some_workbook_input();
            let whole = text(&bytes);
            assert!(bytes.len() <= 40_978 || whole == "refused 13\n");
            bytes.truncate(40_979);
            assert_eq!(text(&bytes), whole);
        }
    }

    #[test]
    fn days_of_an_input() {
        let returns = returns(&years(1));
        let filled = |first, last| fill(&joined((first, last), &returns)).err();
        assert_eq!(
            (filled(61, 61), filled(61, 73_050), filled(73_050, 73_050)),
            (None, None, None)
        );
        for (first, last) in [(60, 61), (73_050, 73_051), (62, 61), (0, 0), (u32::MAX, u32::MAX)] {
            assert_eq!(filled(first, last), Some(12));
        }
        let cells = fill(&joined((61, 62), &returns)).unwrap();
        assert_eq!(cells[25..], [61.0, 62.0, 61.5].map(Cell::Day));
    }

    #[test]
    fn outages_of_two_returns() {
        // Year 2 starts at 482,400, year 3 at 1,009,440.
        let touching = [(0, 482_390, 482_460), (1, 482_460, 482_470)];
        assert_eq!(refused(&years_with(&touching)), None);
        let clash = [(0, 482_390, 482_460), (1, 482_459, 482_470)];
        assert_eq!(refused(&years_with(&clash)), Some(4));
        let far = [(0, 482_390, 1_009_441), (2, 1_009_440, 1_009_450)];
        assert_eq!(refused(&years_with(&far)), Some(4));
        let far = [(0, 482_390, 1_009_441), (2, 1_009_441, 1_009_450)];
        assert_eq!(refused(&years_with(&far)), None);
    }

    #[test]
    fn outages_of_two_returns_together() {
        let mut both = years_with(&[(0, 482_390, 482_460), (1, 482_459, 482_470)]);
        both[1].log.slots[0].mw = 499;
        assert_eq!(refused(&both), None);
        both[1].log.slots[0].mw = 500;
        assert_eq!(refused(&both), Some(4));
        both[1].log.slots[0].cause = 2;
        assert_eq!(refused(&both), Some(4));
        // Three at once, of three returns.
        let mut three = years_with(&[
            (0, 482_390, 1_009_450),
            (1, 1_009_430, 1_009_460),
            (2, 1_009_440, 1_009_441),
        ]);
        (three[0].log.slots[0].mw, three[1].log.slots[0].mw) = (300, 300);
        three[2].log.slots[0].mw = 400;
        assert_eq!(refused(&three), None);
        three[2].log.slots[0].mw = 401;
        assert_eq!(refused(&three), Some(4));
    }

    #[test]
    fn the_running_log_decides_the_target() {
        // All of year 2 is lost, by an outage that starts in year 1: no floor on
        // a miss, but for the mark of an Exceptional Event.
        let mut years = years_with(&[(0, 482_399, 1_009_440)]);
        years[0].log.slots[0].mw = 1_000;
        let floor = |years: &[Year; 5], index: usize| fill(&input(years)).unwrap()[index];
        assert_eq!(floor(&years, 6), Cell::Number(0.0));
        assert_eq!(floor(&years, 10), Cell::Number(48_807_317.0));
        years[1].mark = true;
        assert_eq!(floor(&years, 6), Cell::Number(48_807_317.0));
    }

    #[test]
    fn four_hundred_in_all() {
        let mut full = years(1);
        full[0].log.hold(&minutes(0, 399));
        full[1].log.hold(&minutes(482_400, 1));
        assert_eq!(refused(&full), None);
        full[1].log.hold(&minutes(482_400, 2));
        assert_eq!(refused(&full), Some(5));
        // One that fills its minutes into year 2, behind it and in its last one.
        full[0].log.slots[398].end = 482_402;
        full[0].log.slots[398].mw = 1_000;
        full[1].log.hold(&minutes(482_402, 2));
        assert_eq!(refused(&full), Some(5));
        full[1].log.hold(&[minutes(482_401, 1), minutes(482_402, 1)].concat());
        assert_eq!(refused(&full), Some(4));
        // A clash behind the 401st.
        full[0].log.slots[398].end = 1_009_441;
        full[0].log.count = 399;
        full[1].log.hold(&[]);
        full[2].log.hold(&minutes(1_009_441, 2));
        assert_eq!(refused(&full), Some(5));
    }

    #[test]
    fn the_first_step_that_refuses_decides() {
        let bad_days = |years: &[Year; 5]| fill(&joined((0, 0), &returns(years))).err();
        let mut years = years_with(&[(0, 482_390, 482_460), (1, 482_459, 482_470)]);
        years[2].w = MOST;
        (years[2].pppi, years[3].pppi) = (5_000, 50_000);
        assert_eq!((refused(&years), bad_days(&years)), (Some(4), Some(4)));
        years[1].log.hold(&[]);
        assert_eq!((refused(&years), bad_days(&years)), (Some(11), Some(11)));
        years[2].w = 0;
        years.iter_mut().for_each(|year| year.aic = 0);
        assert_eq!((refused(&years), bad_days(&years)), (Some(10), Some(10)));
        years.iter_mut().for_each(|year| year.aic = 10_000);
        assert_eq!((refused(&years), bad_days(&years)), (None, Some(12)));
        years[3].number = 3;
        assert_eq!((refused(&years), bad_days(&years)), (Some(13), Some(13)));
    }

    #[test]
    fn revenue_above_the_limit() {
        let mut years = years(1);
        years[4].lines[0] = Line { kind: 10, currency: 0, amount: -MOST };
        years[4].lines[1] = Line { kind: 10, currency: 0, amount: -1 };
        years[4].line_count = 2;
        assert_eq!(refused(&years), Some(11));
        years[4].lines[1].amount = 0;
        assert_eq!(fill(&input(&years)).unwrap()[16], Cell::Number(-1e9));
    }
}
