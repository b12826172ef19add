//! The regulator's workbook (rules, section 19).

use std::ops::RangeInclusive;

use super::settlement::{gap, Period, FIRST_DAY, LAST_DAY};
use super::{Refusal, AMOUNT_LIMIT, BALANCE_LIMIT};

/// 3 x 10^10, the limit of an adjustment that is exported.
const ADJUSTMENT_LIMIT: i128 = 30_000_000_000;

/// The amounts of a workbook; the first 20 of them are the yearly ones.
pub const AMOUNTS: usize = 25;
const YEARLY: usize = 20;

/// The cells: the amounts, first and last day, and their median.
pub const CELLS: usize = 28;

/// A cell as it is handed in, kept to the rules or not (rule 19.1).
#[derive(Clone, Copy, Debug, PartialEq)]
pub enum Cell {
    Empty,
    Number(f64),
    Day(f64),
}

/// A period as a workbook has it, kept to rule 19.2 or not.
#[derive(Clone, Copy, Debug, Default, PartialEq)]
pub struct WorkbookPeriod {
    pub first: f64,
    pub last: f64,
    pub median: f64,
}

/// The whole number that a float is; none where it is none. All that lies past
/// 128 bits is as good as the last number of these: out of every range.
fn whole(float: f64) -> Option<i128> {
    (float.is_finite() && float.fract() == 0.0).then_some(float as i128)
}

impl WorkbookPeriod {
    /// Of two whole days; sum and half are exact.
    pub fn make(first: u32, last: u32) -> Result<WorkbookPeriod, Refusal> {
        let period = Period { first, last };
        if !period.in_range() {
            return Err(12);
        }
        Ok(WorkbookPeriod {
            first: first as f64,
            last: last as f64,
            median: period.sum() as f64 / 2.0,
        })
    }

    pub fn of_bits(bits: [u64; 3]) -> WorkbookPeriod {
        let [first, last, median] = bits.map(f64::from_bits);
        WorkbookPeriod { first, last, median }
    }

    pub fn bits(&self) -> [u64; 3] {
        [self.first, self.last, self.median].map(f64::to_bits)
    }

    /// Its two days, where it keeps rule 19.2.
    fn days(&self) -> Result<Period, Refusal> {
        let day = |float| whole(float).and_then(|day| u32::try_from(day).ok()).ok_or(12);
        let period = Period { first: day(self.first)?, last: day(self.last)? };
        if period.in_range() && whole(2.0 * self.median) == Some(period.sum()) {
            Ok(period)
        } else {
            Err(12)
        }
    }
}

/// The gap of two periods by their days (rule 19.3).
pub fn gap_of_medians(earlier: &WorkbookPeriod, later: &WorkbookPeriod) -> Result<u32, Refusal> {
    gap(earlier.days()?, later.days()?)
}

/// Whether the cell at an index is a yearly W, which alone may be empty.
pub fn is_yearly_w(index: usize) -> bool {
    index < YEARLY && index % 4 == 3
}

/// The range of the amount at an index (rule 19.4).
pub fn amount_range(index: usize) -> RangeInclusive<i128> {
    match (index, index % 4) {
        (24, _) => -ADJUSTMENT_LIMIT..=ADJUSTMENT_LIMIT,
        (20..=23, _) => -BALANCE_LIMIT..=BALANCE_LIMIT,
        (_, 1 | 2) => 0..=AMOUNT_LIMIT,
        _ => -AMOUNT_LIMIT..=AMOUNT_LIMIT,
    }
}

/// The cells of 25 amounts and a period (rule 19.5).
pub fn export(amounts: &[i64; AMOUNTS], period: &WorkbookPeriod) -> Result<[Cell; CELLS], Refusal> {
    let in_range = |index: usize| amount_range(index).contains(&(amounts[index] as i128));
    if !(0..YEARLY).all(in_range) {
        return Err(9);
    }
    period.days()?;
    if !(YEARLY..AMOUNTS).all(in_range) {
        return Err(11);
    }
    let days = [period.first, period.last, period.median];
    Ok(std::array::from_fn(|index| match amounts.get(index) {
        Some(0) if is_yearly_w(index) => Cell::Empty,
        // Far below 2^53, so that every pound is a float.
        Some(amount) => Cell::Number(*amount as f64),
        None => Cell::Day(days[index - AMOUNTS]),
    }))
}

/// The amount that a cell has; none where it is bad at this index.
fn amount_of(index: usize, cell: &Cell) -> Option<i64> {
    match cell {
        Cell::Empty => is_yearly_w(index).then_some(0),
        Cell::Number(number) => {
            let amount = whole(*number).filter(|amount| amount_range(index).contains(amount));
            amount.map(|amount| amount as i64)
        }
        Cell::Day(_) => None,
    }
}

/// A first or a last day by itself.
fn day_of(cell: &Cell) -> Option<i128> {
    let Cell::Day(day) = cell else { return None };
    whole(*day).filter(|day| (FIRST_DAY..=LAST_DAY).contains(day))
}

/// Twice a median by itself, so that its half is whole.
fn twice_median_of(cell: &Cell) -> Option<i128> {
    let Cell::Day(median) = cell else { return None };
    whole(2.0 * *median).filter(|twice| (2 * FIRST_DAY..=2 * LAST_DAY).contains(twice))
}

/// The amounts and the period of 28 cells, or the index of the first bad one
/// (rule 19.6). The period's floats are those of its cells.
pub fn read_cells(cells: &[Cell; CELLS]) -> Result<([i64; AMOUNTS], WorkbookPeriod), usize> {
    let mut amounts = [0; AMOUNTS];
    for (index, amount) in amounts.iter_mut().enumerate() {
        *amount = amount_of(index, &cells[index]).ok_or(index)?;
    }
    let first = day_of(&cells[25]).ok_or(25usize)?;
    let last = day_of(&cells[26]).filter(|last| first <= *last).ok_or(26usize)?;
    match (cells[25], cells[26], cells[27]) {
        (Cell::Day(first_day), Cell::Day(last_day), Cell::Day(median))
            if twice_median_of(&cells[27]) == Some(first + last) =>
        {
            Ok((amounts, WorkbookPeriod { first: first_day, last: last_day, median }))
        }
        _ => Err(27),
    }
}

/// The name of the cell at an index (rule 19.9).
fn name(index: usize) -> String {
    const OF_A_YEAR: [&str; 4] = ["revenue", "cap", "floor", "within-period adjustment"];
    const OF_THE_PERIOD: [&str; 8] =
        ["A", "C", "F", "W", "adjustment", "first day", "last day", "median"];
    if index < YEARLY {
        format!("{} {}", OF_A_YEAR[index % 4], 1 + index / 4)
    } else {
        OF_THE_PERIOD[index - YEARLY].to_string()
    }
}

/// The value of a cell in decimal; none where the cell by itself is bad.
fn value(index: usize, cell: &Cell) -> Option<String> {
    match (index, cell) {
        (_, Cell::Empty) => amount_of(index, cell).map(|_| String::new()),
        (25 | 26, _) => day_of(cell).map(|day| day.to_string()),
        (27, _) => twice_median_of(cell)
            .map(|twice| format!("{}{}", twice / 2, if twice % 2 == 1 { ".5" } else { "" })),
        _ => amount_of(index, cell).map(|amount| amount.to_string()),
    }
}

/// A cell as a line of CSV (rule 19.9).
pub fn print_cell(index: u32, cell: &Cell) -> Result<String, Refusal> {
    let index = index as usize;
    if index >= CELLS {
        return Err(18);
    }
    let value = value(index, cell).ok_or(18)?;
    Ok(format!("{},{value}\n", name(index)))
}

#[cfg(test)]
mod tests {
    use super::*;

    const INF: f64 = f64::INFINITY;

    /// Floats that are no whole number: a half, a quarter, the least, none, and
    /// the infinities.
    const NOT_WHOLE: [f64; 9] =
        [0.5, -0.5, 100.25, 1e8 + 0.5, f64::MIN_POSITIVE, f64::NAN, -f64::NAN, INF, -INF];

    /// Patterns of a NaN.
    const NANS: [u64; 4] = [0x7ff8 << 48, (0x7ff0 << 48) | 1, 0xfff8 << 48, u64::MAX];

    fn period(first: f64, last: f64, median: f64) -> WorkbookPeriod {
        WorkbookPeriod { first, last, median }
    }

    /// The period of 2023.
    fn year_2023() -> WorkbookPeriod {
        period(44_927.0, 45_291.0, 45_109.0)
    }

    /// Amounts that are all different, and in range.
    fn some_amounts() -> [i64; AMOUNTS] {
        std::array::from_fn(|index| index as i64 + 1)
    }

    fn some_cells() -> [Cell; CELLS] {
        export(&some_amounts(), &year_2023()).unwrap()
    }

    /// The limits of the amount at an index, as rule 19.4 has them.
    fn limits(index: usize) -> (i64, i64) {
        match index {
            0 | 4 | 8 | 12 | 16 | 3 | 7 | 11 | 15 | 19 => (-1_000_000_000, 1_000_000_000),
            1 | 5 | 9 | 13 | 17 | 2 | 6 | 10 | 14 | 18 => (0, 1_000_000_000),
            20..=23 => (-10_000_000_000, 10_000_000_000),
            _ => (-30_000_000_000, 30_000_000_000),
        }
    }

    /// The cells with another one at an index: the amounts, or the first bad one.
    fn read_with(index: usize, cell: Cell) -> Result<[i64; AMOUNTS], usize> {
        let mut cells = some_cells();
        cells[index] = cell;
        read_cells(&cells).map(|(amounts, _)| amounts)
    }

    #[test]
    fn what_a_float_says() {
        assert_eq!((whole(0.0), whole(-0.0)), (Some(0), Some(0)));
        assert_eq!((whole(-7.0), whole(9_007_199_254_740_992.0)), (Some(-7), Some(1 << 53)));
        assert!(NOT_WHOLE.iter().all(|float| whole(*float).is_none()));
        assert!(NANS.iter().all(|bits| whole(f64::from_bits(*bits)).is_none()));
        for beside in [1f64, 61.0, 1e9, 3e10] {
            assert_eq!(whole(beside.next_up()), None);
            assert_eq!(whole(beside.next_down()), None);
        }
        let subnormals = [1, (1 << 52) - 1, (1 << 63) | 1].map(f64::from_bits);
        assert!(subnormals.iter().all(|float| whole(*float).is_none()));
        assert!(whole(1e300).unwrap() > 30_000_000_000 && whole(-1e300).unwrap() < 0);
    }

    #[test]
    fn periods_are_made_of_two_days() {
        assert_eq!(WorkbookPeriod::make(44_927, 45_291), Ok(year_2023()));
        assert_eq!(WorkbookPeriod::make(61, 61), Ok(period(61.0, 61.0, 61.0)));
        assert_eq!(WorkbookPeriod::make(61, 62), Ok(period(61.0, 62.0, 61.5)));
        assert_eq!(WorkbookPeriod::make(73_050, 73_050), Ok(period(73_050.0, 73_050.0, 73_050.0)));
        assert_eq!(WorkbookPeriod::make(61, 73_050), Ok(period(61.0, 73_050.0, 36_555.5)));
        for (first, last) in [(60, 61), (60, 60), (0, 0), (73_050, 73_051), (73_051, 73_051)] {
            assert_eq!(WorkbookPeriod::make(first, last), Err(12));
        }
        for (first, last) in [(62, 61), (u32::MAX, 61), (61, u32::MAX), (u32::MAX, u32::MAX)] {
            assert_eq!(WorkbookPeriod::make(first, last), Err(12));
        }
    }

    #[test]
    fn days_of_a_period_are_whole_and_in_range() {
        let days = |first, last, median| period(first, last, median).days().is_ok();
        assert!(days(61.0, 61.0, 61.0) && days(61.0, 62.0, 61.5) && days(61.0, 63.0, 62.0));
        assert!(days(73_049.0, 73_050.0, 73_049.5) && days(73_050.0, 73_050.0, 73_050.0));
        assert!(!days(60.0, 61.0, 60.5) && !days(60.0, 60.0, 60.0));
        assert!(!days(73_050.0, 73_051.0, 73_050.5) && !days(73_051.0, 73_051.0, 73_051.0));
        assert!(!days(62.0, 61.0, 61.5) && !days(61.5, 61.5, 61.5) && !days(61.5, 62.5, 62.0));
        assert!(!days(61.0, 62.5, 61.75) && !days(61.0f64.next_up(), 62.0, 61.5));
        for zero in [0.0, -0.0] {
            assert!(!days(zero, zero, zero) && !days(zero, 61.0, 30.5) && !days(61.0, zero, 30.5));
        }
        assert!(!days(-61.0, 61.0, 0.0) && !days(4_294_967_357.0, 4_294_967_357.0, 61.0));
        for bad in NOT_WHOLE.into_iter().chain([1e300, -1e300]) {
            assert!(!days(bad, bad, bad) && !days(bad, 61.0, 61.0) && !days(61.0, bad, 61.0));
            assert!(!days(61.0, 61.0, bad));
        }
    }

    #[test]
    fn the_median_is_that_of_the_days() {
        let right = |median| period(61.0, 64.0, median).days().is_ok();
        assert!(right(62.5));
        // A half off, a day off, cut to whole days, and a last bit off.
        for wrong in [62.0, 63.0, 61.5, 63.5, 61.0, 64.0, 62.25, 62.75, -62.5] {
            assert!(!right(wrong));
        }
        assert!(!right(62.5f64.next_up()) && !right(62.5f64.next_down()));
        assert_eq!(gap_of_medians(&year_2023(), &period(61.0, 64.0, 62.0)), Err(12));
        assert_eq!(gap_of_medians(&period(61.0, 64.0, 62.0), &year_2023()), Err(12));
    }

    #[test]
    fn gaps_are_those_of_the_days() {
        let later = WorkbookPeriod::make(45_383, 45_747).unwrap();
        assert_eq!(gap_of_medians(&year_2023(), &later), Ok(125));
        assert_eq!(gap_of_medians(&later, &year_2023()), Err(12));
        let by = |g: u32| WorkbookPeriod::make(44_927, 45_291 + g).unwrap();
        assert_eq!(gap_of_medians(&year_2023(), &by(3)), Ok(0));
        assert_eq!(gap_of_medians(&year_2023(), &by(4)), Ok(1));
        assert_eq!(gap_of_medians(&year_2023(), &by(3_648)), Ok(499));
        assert_eq!(gap_of_medians(&year_2023(), &by(3_649)), Err(12));
        assert_eq!(gap_of_medians(&by(3), &year_2023()), Ok(0));
        assert_eq!(gap_of_medians(&by(4), &year_2023()), Err(12));
    }

    #[test]
    fn amounts_come_out_in_their_order() {
        let cells = some_cells();
        for (index, cell) in cells[..AMOUNTS].iter().enumerate() {
            assert_eq!(*cell, Cell::Number(index as f64 + 1.0));
        }
        let days = [44_927.0, 45_291.0, 45_109.0].map(Cell::Day);
        assert_eq!(cells[AMOUNTS..], days);
    }

    #[test]
    fn only_a_yearly_w_of_0_is_empty() {
        let cells = export(&[0; AMOUNTS], &year_2023()).unwrap();
        for (index, cell) in cells[..AMOUNTS].iter().enumerate() {
            let yearly_w = [3, 7, 11, 15, 19].contains(&index);
            assert_eq!(*cell, if yearly_w { Cell::Empty } else { Cell::Number(0.0) });
            assert!(!matches!(cell, Cell::Number(zero) if zero.is_sign_negative()));
        }
        let cells = export(&[1; AMOUNTS], &year_2023()).unwrap();
        assert!(!cells.contains(&Cell::Empty));
    }

    #[test]
    fn exported_amounts_on_both_sides() {
        for index in 0..AMOUNTS {
            let (low, high) = limits(index);
            let with = |amount: i64| {
                let mut amounts = some_amounts();
                amounts[index] = amount;
                export(&amounts, &year_2023())
            };
            for amount in [low, high] {
                let cell = with(amount).unwrap()[index];
                let empty = amount == 0 && index % 4 == 3 && index < 20;
                assert_eq!(cell, if empty { Cell::Empty } else { Cell::Number(amount as f64) });
            }
            for past in [low - 1, high + 1, i64::MIN, i64::MAX] {
                assert_eq!(with(past), Err(if index < 20 { 9 } else { 11 }), "{index}");
            }
        }
    }

    #[test]
    fn an_export_refuses_in_order() {
        let (mut amounts, bad) = (some_amounts(), period(60.0, 61.0, 60.5));
        assert_eq!(export(&amounts, &bad), Err(12));
        amounts[24] = 30_000_000_001;
        assert_eq!(export(&amounts, &year_2023()), Err(11));
        assert_eq!(export(&amounts, &bad), Err(12));
        amounts[19] = -1_000_000_001;
        assert_eq!(export(&amounts, &bad), Err(9));
        assert_eq!(export(&amounts, &year_2023()), Err(9));
    }

    #[test]
    fn amounts_that_are_read_on_both_sides() {
        for index in 0..AMOUNTS {
            let (low, high) = limits(index);
            let read = |number| read_with(index, Cell::Number(number)).map(|row| row[index]);
            assert_eq!((read(low as f64), read(high as f64)), (Ok(low), Ok(high)));
            assert_eq!((read(0.0), read(-0.0), read(7.0)), (Ok(0), Ok(0), Ok(7)));
            let beside = [low as f64 - 1.0, high as f64 + 1.0, high as f64 + 0.5, 6.5, 6.75];
            let far = [2f64.powi(53), 2f64.powi(63), -2f64.powi(63), 1e300, -1e300];
            let ulps = [7f64.next_up(), 7f64.next_down(), (high as f64).next_up()];
            for bad in beside.into_iter().chain(far).chain(ulps).chain(NOT_WHOLE) {
                assert_eq!(read(bad), Err(index), "{bad}");
            }
            assert_eq!(read_with(index, Cell::Day(7.0)), Err(index));
            assert_eq!(read_with(index, Cell::Day(61.0)), Err(index));
        }
    }

    #[test]
    fn only_a_yearly_w_may_be_empty() {
        for index in 0..CELLS {
            let read = read_with(index, Cell::Empty);
            if [3, 7, 11, 15, 19].contains(&index) {
                assert_eq!(read.unwrap()[index], 0);
            } else {
                assert_eq!(read, Err(index));
            }
        }
    }

    #[test]
    fn days_that_are_read_on_both_sides() {
        let read = |first, last, median| {
            let mut cells = some_cells();
            cells[25..].copy_from_slice(&[first, last, median].map(Cell::Day));
            read_cells(&cells).map(|(_, period)| period)
        };
        assert_eq!(read(61.0, 61.0, 61.0), Ok(period(61.0, 61.0, 61.0)));
        assert_eq!(read(61.0, 73_050.0, 36_555.5), Ok(period(61.0, 73_050.0, 36_555.5)));
        for bad in [60.0, 73_051.0, 61.5, 0.0, -0.0, -61.0].into_iter().chain(NOT_WHOLE) {
            assert_eq!(read(bad, 73_050.0, (bad + 73_050.0) / 2.0), Err(25));
            assert_eq!(read(61.0, bad, (61.0 + bad) / 2.0), Err(26));
            assert_eq!(read(61.0, 62.0, if bad == 61.5 { 61.0 } else { bad }), Err(27));
        }
        assert_eq!(read(63.0, 62.0, 62.5), Err(26));
        assert_eq!(read(62.0, 62.0, 62.0), Ok(period(62.0, 62.0, 62.0)));
        for wrong in [61.0, 62.0, 61.25, 60.5, 62.5] {
            assert_eq!(read(61.0, 62.0, wrong), Err(27));
        }
        for index in 25..CELLS {
            let Cell::Day(day) = some_cells()[index] else { panic!() };
            assert_eq!(read_with(index, Cell::Number(day)), Err(index));
        }
    }

    #[test]
    fn the_first_bad_cell_decides() {
        for first in 0..CELLS {
            let mut cells = some_cells();
            cells[first..].fill(Cell::Number(f64::NAN));
            assert_eq!(read_cells(&cells), Err(first));
        }
    }

    #[test]
    fn amounts_need_not_agree() {
        // Floors above their caps, and balances of nothing.
        let mut amounts = [0; AMOUNTS];
        for floor in [2, 6, 10, 14, 18] {
            amounts[floor] = 1_000_000_000;
        }
        amounts[24] = -30_000_000_000;
        let cells = export(&amounts, &year_2023()).unwrap();
        assert_eq!(read_cells(&cells), Ok((amounts, year_2023())));
    }

    #[test]
    fn cells_go_there_and_back() {
        let least = std::array::from_fn(|index| limits(index).0);
        let most = std::array::from_fn(|index| limits(index).1);
        for amounts in [some_amounts(), [0; AMOUNTS], least, most] {
            let cells = export(&amounts, &year_2023()).unwrap();
            assert_eq!(read_cells(&cells), Ok((amounts, year_2023())));
        }
        let mut cells = some_cells();
        let zeros = [(0, 0.0), (1, -0.0), (3, 0.0), (7, -0.0), (20, -0.0)];
        zeros.iter().for_each(|(index, zero)| cells[*index] = Cell::Number(*zero));
        let (amounts, period) = read_cells(&cells).unwrap();
        let again = export(&amounts, &period).unwrap();
        for (index, cell) in again.iter().enumerate() {
            let expected = if index == 3 || index == 7 { Cell::Empty } else { cells[index] };
            assert_eq!(*cell, expected);
            assert!(!matches!(cell, Cell::Number(zero) if zero.is_sign_negative()));
        }
    }

    #[test]
    fn the_lines_of_a_workbook() {
        let lines: Vec<String> =
            (0..).zip(&some_cells()).map(|(at, cell)| print_cell(at, cell).unwrap()).collect();
        assert_eq!(
            lines[..4].concat(),
            "revenue 1,1\ncap 1,2\nfloor 1,3\nwithin-period adjustment 1,4\n"
        );
        assert_eq!(
            lines[16..20].concat(),
            "revenue 5,17\ncap 5,18\nfloor 5,19\nwithin-period adjustment 5,20\n"
        );
        assert_eq!(lines[20..25].concat(), "A,21\nC,22\nF,23\nW,24\nadjustment,25\n");
        assert_eq!(lines[25..].concat(), "first day,44927\nlast day,45291\nmedian,45109\n");
        let line = |index, cell| print_cell(index, &cell).unwrap();
        assert_eq!(line(3, Cell::Empty), "within-period adjustment 1,\n");
        assert_eq!(line(3, Cell::Number(-0.0)), "within-period adjustment 1,0\n");
        assert_eq!(line(0, Cell::Number(-1e9)), "revenue 1,-1000000000\n");
        assert_eq!(line(24, Cell::Number(3e10)), "adjustment,30000000000\n");
        assert_eq!(line(27, Cell::Day(61.5)), "median,61.5\n");
        assert_eq!(line(27, Cell::Day(73_050.0)), "median,73050\n");
    }

    #[test]
    fn a_cell_is_printed_by_itself() {
        for index in 0..CELLS as u32 {
            let bad = |cell| assert_eq!(print_cell(index, &cell), Err(18), "{index} {cell:?}");
            for float in [f64::NAN, INF, -INF, 0.25, 1e300, 73_050.25].into_iter() {
                bad(Cell::Number(float));
                bad(Cell::Day(float));
            }
            let days = index >= 25;
            bad(if days { Cell::Number(61.0) } else { Cell::Day(61.0) });
            assert_eq!(print_cell(index, &Cell::Day(61.0)).is_ok(), days);
            assert_eq!(print_cell(index, &Cell::Day(61.5)).is_ok(), index == 27);
            assert_eq!(print_cell(index, &Cell::Number(-1.0)).is_ok(), read_at(index, -1.0));
            let empty = [3, 7, 11, 15, 19].contains(&index);
            assert_eq!(print_cell(index, &Cell::Empty).is_ok(), empty);
        }
        for (bad, good) in [(60.0, 61.0), (60.5, 61.5), (73_050.5, 73_049.5), (73_051.0, 73_050.0)]
        {
            assert!(print_cell(27, &Cell::Day(bad)).is_err());
            assert!(print_cell(27, &Cell::Day(good)).is_ok());
        }
        for index in [28, 29, u32::MAX] {
            for cell in [Cell::Empty, Cell::Number(0.0), Cell::Day(61.0)] {
                assert_eq!(print_cell(index, &cell), Err(18));
            }
        }
    }

    /// Whether a number is read at an index.
    fn read_at(index: u32, number: f64) -> bool {
        read_with(index as usize, Cell::Number(number)).is_ok()
    }
}
