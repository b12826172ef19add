//! Blocks about the regulator's workbook: its periods and its cells.

use super::random::Random;
use super::Generator;
use crate::model::settlement::Period;
use crate::model::workbook::{
    amount_range, export, is_yearly_w, read_cells, WorkbookPeriod, AMOUNTS, CELLS,
};
use crate::script::{Call, CellBits, PeriodBits};

/// Patterns of a NaN: quiet and signalling, of both signs.
const NANS: [u64; 6] = [
    0x7ff8_0000_0000_0000,
    0x7ff8_0000_0000_0001,
    0x7ff0_0000_0000_0001,
    0xfff8_0000_0000_0000,
    0xfff0_0000_0000_0001,
    u64::MAX,
];

/// 2^32: a day so much later is the same in 32 bits.
const ROUND: f64 = 4_294_967_296.0;

/// The days and their median as floats, whether they are a period or not.
fn floats_of(period: &Period) -> PeriodBits {
    with_median(period.first as f64, period.last as f64)
}

fn with_median(first: f64, last: f64) -> PeriodBits {
    [first, last, (first + last) / 2.0].map(f64::to_bits)
}

fn empty() -> CellBits {
    CellBits { kind: 0, bits: 0 }
}

fn number(float: f64) -> CellBits {
    CellBits { kind: 1, bits: float.to_bits() }
}

fn day(bits: u64) -> CellBits {
    CellBits { kind: 2, bits }
}

/// The float of a cell.
fn float(cell: &CellBits) -> f64 {
    f64::from_bits(cell.bits)
}

impl Random {
    /// Two days of a period, often at a limit, equal or next to each other.
    fn fair_days(&mut self) -> Period {
        let first = match self.below(5) {
            0 => 61,
            1 => 73_050 - self.below(3) as u32,
            _ => self.between(61, 73_050) as u32,
        };
        let length = self.pick(&[0, 0, 1, 1, 2, 364, 365, 1_826]);
        Period { first, last: (first + length).min(73_050) }
    }

    fn fair_floats(&mut self) -> PeriodBits {
        let days = self.fair_days();
        floats_of(&days)
    }

    /// A float that is a whole number in no range: NaN, infinite, next to 0, or
    /// far off.
    fn wild_float(&mut self) -> u64 {
        // 2^53, 2^63 and 2^64, which is 0 in 64 bits.
        let far = [9_007_199_254_740_992.0, 9_223_372_036_854_775_808.0, 1e300, f64::MAX];
        let far = [&far[..], &[18_446_744_073_709_551_616.0]].concat();
        match self.below(6) {
            0 | 1 => self.pick(&NANS),
            2 => f64::INFINITY.to_bits(),
            3 => f64::NEG_INFINITY.to_bits(),
            4 => self.pick(&[1, (1 << 63) | 1, (1 << 52) - 1, (1 << 63) | ((1 << 52) - 1)]),
            _ => (self.pick(&far) * self.pick(&[1.0, 1.0, -1.0])).to_bits(),
        }
    }

    /// A float beside a whole number: a half, a quarter or its last bit off.
    fn beside_whole(&mut self, whole: f64) -> u64 {
        let side = self.pick(&[1.0, -1.0]);
        match self.below(4) {
            0 | 1 => (whole + 0.5 * side).to_bits(),
            2 => (whole + 0.25 * side).to_bits(),
            _ if whole == 0.0 => 1.5f64.to_bits(),
            _ => whole.to_bits() ^ 1,
        }
    }

    /// An amount in range at an index: at a limit, 0, small or any.
    fn fair_cell_amount(&mut self, index: usize) -> i64 {
        let (low, high) = amount_range(index).into_inner();
        let amount = match self.below(6) {
            0 => high,
            1 => low,
            2 => 0,
            3 => self.between(low.max(-3), 3),
            _ => self.between(low, high),
        };
        amount as i64
    }

    /// An amount past its range at an index, by one or by far.
    fn bad_cell_amount(&mut self, index: usize) -> i64 {
        let (low, high) = amount_range(index).into_inner();
        match self.below(10) {
            0..=2 => high as i64 + 1,
            3..=5 => low as i64 - 1,
            6 => (1 << 40) + 5,
            7 => -(1 << 40) - 5,
            8 => self.pick(&[i64::MAX, i64::MAX - 1, 1 << 53]),
            _ => self.pick(&[i64::MIN, i64::MIN + 1, -(1 << 53)]),
        }
    }

    fn fair_amounts(&mut self) -> [i64; AMOUNTS] {
        std::array::from_fn(|index| self.fair_cell_amount(index))
    }

    /// A cell that reads as an amount; 0 has more than one.
    fn cell_of(&mut self, index: usize, amount: i64) -> CellBits {
        match self.below(4) {
            _ if amount != 0 => number(amount as f64),
            0 => number(0.0),
            1 => number(-0.0),
            _ if !is_yearly_w(index) => number(0.0),
            2 => empty(),
            // An empty cell does not look at its bits.
            _ => CellBits { kind: 0, bits: self.pick(&[1, 1.0f64.to_bits(), NANS[0]]) },
        }
    }

    /// Cells that are read.
    fn fair_cells(&mut self) -> [CellBits; CELLS] {
        let (amounts, floats) = (self.fair_amounts(), self.fair_floats());
        std::array::from_fn(|index| match amounts.get(index) {
            Some(amount) => self.cell_of(index, *amount),
            None => day(floats[index - AMOUNTS]),
        })
    }

    /// A cell that is bad at the index of an amount.
    fn bad_amount_cell(&mut self, index: usize) -> CellBits {
        let fair = self.fair_cell_amount(index) as f64;
        match self.below(8) {
            0 if !is_yearly_w(index) => empty(),
            0 | 1 => day(self.pick(&[fair.to_bits(), 61f64.to_bits()])),
            2 | 3 => CellBits { kind: 1, bits: self.beside_whole(fair) },
            4 | 5 => CellBits { kind: 1, bits: self.wild_float() },
            _ => number(self.bad_cell_amount(index) as f64),
        }
    }

    /// A day that is bad by itself at its index, the last one the median's.
    fn bad_day_cell(&mut self, index: usize, fair: f64) -> CellBits {
        let median = index == 27;
        let bits = match self.below(13) {
            0 => return empty(),
            1 => return number(fair),
            2 | 3 if median => self.pick(&[fair + 0.25, fair - 0.25]).to_bits(),
            2 => self.pick(&[61.5, fair + 0.5, fair + 0.25]).to_bits(),
            3 => self.beside_whole(fair),
            4..=7 => self.wild_float(),
            8 => self.pick(&[0.0, -0.0f64]).to_bits(),
            9 if median => self.pick(&[60.5, 60.0f64]).to_bits(),
            10 if median => self.pick(&[73_050.5, 73_051.0f64]).to_bits(),
            9 => 60f64.to_bits(),
            10 => 73_051f64.to_bits(),
            11 => (fair + ROUND).to_bits(),
            _ => fair.to_bits() ^ 1,
        };
        day(bits)
    }

    /// A cell that is bad at its index among these: by itself, or as the last
    /// day or the median of the others.
    fn bad_cell(&mut self, index: usize, cells: &[CellBits; CELLS]) -> CellBits {
        let fair = float(&cells[index]);
        let (first, last) = (float(&cells[25]), float(&cells[26]));
        match index {
            26 if first > 61.0 && self.one_in(3) => day(self.pick(&[first - 1.0, 61.0]).to_bits()),
            27 if self.one_in(2) => day(self.other_median(first, last).to_bits()),
            0..=24 => self.bad_amount_cell(index),
            _ => self.bad_day_cell(index, fair),
        }
    }

    /// A median that is not that of these days: by a half, by a day, cut to a
    /// whole day where it is not whole, or that of other days.
    fn other_median(&mut self, first: f64, last: f64) -> f64 {
        let median = (first + last) / 2.0;
        let cut = median.floor();
        match self.below(6) {
            _ if cut != median && self.one_in(2) => cut,
            0 => median + 0.5,
            1 => median - 0.5,
            2 => median + 1.0,
            3 => median - 1.0,
            _ => {
                let other = self.between(2 * 61, 2 * 73_050) as f64 / 2.0;
                if other == median {
                    median + 1.0
                } else {
                    other
                }
            }
        }
    }

    /// Spoils a workbook's period in one way.
    fn spoil_floats(&mut self, floats: &mut PeriodBits) {
        let [first, last, median] = floats.map(f64::from_bits);
        let one_day = self.below(2) as usize;
        match self.below(20) {
            0 => floats[one_day] = self.pick(&NANS),
            1 => floats[one_day] = self.pick(&[f64::INFINITY, f64::NEG_INFINITY]).to_bits(),
            2 => floats[one_day] = self.pick(&[9_007_199_254_740_992.0, 1e300f64]).to_bits(),
            3 => floats[one_day] = self.wild_float(),
            4 => floats[2] = self.pick(&NANS),
            5 => floats[2] = self.pick(&[f64::INFINITY, f64::NEG_INFINITY]).to_bits(),
            6 => floats[2] ^= 1,
            7 => floats[2] = self.pick(&[median - 0.25, median + 0.25]).to_bits(),
            8..=11 => floats[2] = self.other_median(first, last).to_bits(),
            12 => {
                // Cut to a whole day.
                let last = if median.fract() == 0.0 { last + 1.0 } else { last };
                *floats = [first, last, ((first + last) / 2.0).floor()].map(f64::to_bits);
            }
            // A half day and the median that it would have.
            13 => *floats = with_median(first + 0.5, last + 1.0),
            14 => *floats = with_median(last + 1.0, last),
            _ => *floats = self.days_past_a_limit(),
        }
    }

    /// Two days of which one is out of range, with the median of the two.
    fn days_past_a_limit(&mut self) -> PeriodBits {
        match self.below(6) {
            0 => with_median(60.0, self.pick(&[60.0, 61.0, 400.0])),
            1 => with_median(self.pick(&[73_050.0, 73_051.0, 70_000.0]), 73_051.0),
            2 => with_median(0.0, self.pick(&[0.0, 61.0])),
            3 => with_median(-0.0, self.pick(&[-0.0, 61.0])),
            4 => with_median(ROUND + 61.0, ROUND + self.pick(&[61.0, 62.0])),
            _ => with_median(-61.0, self.pick(&[-61.0, 61.0])),
        }
    }

    /// Two periods whose gap is at a limit or just past it.
    fn edge_gap(&mut self) -> (Period, Period) {
        let g = self.pick(&[-4, -3, 3, 4, 3_648, 3_648, 3_649, 3_650]);
        let first = self.between(100, 60_000) as i32;
        let last = first + self.pick(&[0, 1, 364]);
        let later = Period { first: (first + g / 2) as u32, last: (last + g - g / 2) as u32 };
        (Period { first: first as u32, last: last as u32 }, later)
    }

    /// Two days that `make-period` may be given.
    fn any_days(&mut self) -> Period {
        let fair = self.fair_days();
        match self.below(12) {
            0 => Period { first: 60, ..fair },
            1 => Period { first: self.pick(&[0, 0, 1]), ..fair },
            2 => Period { last: 73_051, ..fair },
            3 => Period { last: self.pick(&[u32::MAX, u32::MAX, 1 << 31]), ..fair },
            4 => Period { first: fair.last + 1, last: fair.last },
            5 => Period { first: self.pick(&[61, 73_050, 73_051]), last: 73_050 },
            6 => Period { first: self.edge_u32(), last: self.edge_u32() },
            _ => fair,
        }
    }
}

impl Generator {
    /// Periods made and compared, periods exported, cells read and printed, and
    /// workbooks filled.
    pub fn workbook_work(&mut self) {
        for _ in 0..10 {
            let Period { first, last } = self.random.any_days();
            self.call(Call::MakePeriod { first, last });
        }
        for _ in 0..20 {
            self.gap_call();
        }
        self.exports();
        self.readings();
        self.printings();
        for _ in 0..20 {
            let bytes = self.some_workbook_input();
            self.call(Call::FillWorkbook { bytes });
        }
    }

    /// The gap of two periods, at a limit or not; of which one is spoiled, or
    /// has the median of the other.
    fn gap_call(&mut self) {
        let (earlier, later) = match self.random.below(4) {
            0 => self.random.edge_gap(),
            _ => self.random.periods(),
        };
        let (mut earlier, mut later) = (floats_of(&earlier), floats_of(&later));
        match self.random.below(10) {
            0..=1 => self.random.spoil_floats(&mut earlier),
            2..=3 => self.random.spoil_floats(&mut later),
            4 => earlier[2] = later[2],
            5 => std::mem::swap(&mut earlier[2], &mut later[2]),
            _ => (),
        }
        self.call(Call::GapOfMedians { earlier, later });
    }

    /// One bad amount in each of the 25 places, and good ones; beside good and
    /// bad periods.
    fn exports(&mut self) {
        for index in 0..AMOUNTS {
            let mut amounts = self.random.fair_amounts();
            amounts[index] = self.random.bad_cell_amount(index);
            if self.random.one_in(8) {
                let other = self.random.below(AMOUNTS as u64) as usize;
                amounts[other] = self.random.bad_cell_amount(other);
            }
            let spoiled = self.random.one_in(5);
            self.export(amounts, spoiled);
        }
        for place in 0..10 {
            let amounts = self.random.fair_amounts();
            self.export(amounts, place >= 3);
        }
    }

    /// Exports a period, and reads now and then what comes out.
    fn export(&mut self, amounts: [i64; AMOUNTS], spoiled: bool) {
        let mut period = self.random.fair_floats();
        if spoiled {
            self.random.spoil_floats(&mut period);
        }
        self.call(Call::Export { amounts, period });
        if let Ok(cells) = export(&amounts, &WorkbookPeriod::of_bits(period)) {
            if self.random.one_in(3) {
                self.read(cells.map(|cell| CellBits::of(&cell)));
            }
        }
    }

    /// Reads cells, and exports now and then what was read.
    fn read(&mut self, cells: [CellBits; CELLS]) {
        self.call(Call::ReadCells { cells: Box::new(cells) });
        if let Ok((amounts, period)) = read_cells(&cells.map(|cell| cell.cell())) {
            if self.random.one_in(4) {
                self.call(Call::Export { amounts, period: period.bits() });
            }
        }
    }

    /// One bad cell in each of the 28 places; good cells, and two bad ones.
    fn readings(&mut self) {
        for index in 0..CELLS {
            let mut cells = self.random.fair_cells();
            cells[index] = self.random.bad_cell(index, &cells);
            self.read(cells);
        }
        for _ in 0..4 {
            let mut cells = self.random.fair_cells();
            self.read(cells);
            self.other_days(cells);
            for _ in 0..2 {
                let index = self.random.below(CELLS as u64) as usize;
                cells[index] = self.random.bad_cell(index, &cells);
            }
            self.read(cells);
        }
    }

    /// Reads cells whose last day or median is good by itself alone.
    fn other_days(&mut self, mut cells: [CellBits; CELLS]) {
        let (first, last) = (float(&cells[25]), float(&cells[26]));
        if first > 61.0 && self.random.one_in(3) {
            cells[26] = day((first - 1.0).to_bits());
            cells[27] = day((first - 0.5).to_bits());
        } else {
            cells[27] = day(self.random.other_median(first, last).to_bits());
        }
        self.read(cells);
    }

    /// A cell at each index, good or bad, and at indices past the last.
    fn printings(&mut self) {
        let cells = self.random.fair_cells();
        for index in 0..CELLS {
            let cell = match self.random.below(2) {
                0 => cells[index],
                _ => self.random.bad_cell(index, &cells),
            };
            self.call(Call::PrintCell { index: index as u32, cell });
        }
        for index in [28, 29, 30, u32::MAX] {
            let place = self.random.below(CELLS as u64) as usize;
            let bad = self.random.bad_cell(place, &cells);
            let cell = self.random.pick(&[cells[place], empty(), bad, number(f64::NAN)]);
            self.call(Call::PrintCell { index, cell });
        }
        self.edge_printings(&cells);
    }

    /// Bad cells where there is one place alone, and values at a limit.
    fn edge_printings(&mut self, cells: &[CellBits; CELLS]) {
        for index in [24, 25, 26, 27] {
            for _ in 0..2 {
                let cell = match index {
                    24 => self.random.bad_amount_cell(index),
                    _ => self.random.bad_day_cell(index, float(&cells[index])),
                };
                self.call(Call::PrintCell { index: index as u32, cell });
            }
        }
        let w = self.random.pick(&[3, 7, 11, 15, 19]);
        let zero = self.random.pick(&[empty(), number(0.0), number(-0.0)]);
        let low = self.random.pick(&[60.5, 61.0, 61.5f64]);
        let high = self.random.pick(&[73_049.5, 73_050.0, 73_050.5f64]);
        for (index, cell) in [
            (w, zero),
            (27, day(low.to_bits())),
            (27, day(high.to_bits())),
            (24, number(self.random.pick(&[3e10, -3e10]))),
            (20 + w / 4 % 4, number(self.random.pick(&[1e10, -1e10, -0.0]))),
        ] {
            self.call(Call::PrintCell { index, cell });
        }
    }

    /// A call on any cells, days and bytes.
    pub fn any_workbook_call(&mut self) -> Call {
        let mut cells = self.random.fair_cells();
        let index = self.random.below(CELLS as u64) as usize;
        cells[index] = CellBits { kind: self.random.below(3) as u8, bits: self.random.next() };
        let mut period = self.random.fair_floats();
        if self.random.one_in(2) {
            period[index % 3] = self.random.next();
        }
        match self.random.below(6) {
            0 => {
                Call::MakePeriod { first: self.random.next() as u32, last: self.random.edge_u32() }
            }
            1 => Call::GapOfMedians { earlier: period, later: self.random.fair_floats() },
            2 => {
                let mut amounts = self.random.fair_amounts();
                amounts[index % AMOUNTS] = self.random.next() as i64;
                Call::Export { amounts, period }
            }
            3 => Call::ReadCells { cells: Box::new(cells) },
            4 => Call::PrintCell { index: self.random.below(30) as u32, cell: cells[index] },
            _ => Call::FillWorkbook { bytes: self.some_workbook_input() },
        }
    }
}

#[cfg(test)]
mod tests {
    use super::*;
    use crate::desk::Desk;
    use crate::generate::tests::seen_in;
    use crate::model::workbook::{gap_of_medians, print_cell};

    type Edges = Vec<(&'static str, bool)>;

    /// About as many as there are among 100,000 calls.
    const BLOCKS: usize = 75;

    const ZERO: u64 = 0;
    const MINUS_ZERO: u64 = 1 << 63;

    /// The refusal's number of an answer.
    fn refusal(answer: &str) -> u8 {
        answer.split(' ').next().unwrap().parse().unwrap()
    }

    /// Whether three floats keep rule 19.2.
    fn is_period(floats: &PeriodBits) -> bool {
        let period = WorkbookPeriod::of_bits(*floats);
        gap_of_medians(&period, &period) == Ok(0)
    }

    fn is_good_day(day: f64) -> bool {
        day.fract() == 0.0 && (61.0..=73_050.0).contains(&day)
    }

    fn named(call: &str, edges: Edges) -> Vec<String> {
        edges.iter().filter(|edge| edge.1).map(|edge| format!("{call}: {}", edge.0)).collect()
    }

    fn making_edges(first: u32, last: u32, number: u8) -> Edges {
        let (made, refused) = (number == 0, number == 12);
        vec![
            ("first 61", made && first == 61),
            ("first 60", refused && first == 60 && last > 60),
            ("first 0", refused && first == 0),
            ("last 73,050", made && last == 73_050),
            ("last 73,051", refused && last == 73_051 && first < 73_051),
            ("last near 2^32", refused && last >= u32::MAX - 1),
            ("equal days", made && first == last),
            ("a day reversed", refused && (61..73_050).contains(&last) && first == last + 1),
            ("a half", made && (first ^ last) & 1 == 1),
        ]
    }

    /// What the days of a period have that is at a limit or past it.
    fn day_edges(floats: &PeriodBits) -> Edges {
        let [first, last, median] = floats.map(f64::from_bits);
        let days = [first, last];
        let any = |is: &dyn Fn(f64) -> bool| days.iter().any(|day| is(*day));
        let halved = median == (first + last) / 2.0;
        let good = is_good_day(first) && is_good_day(last);
        vec![
            ("a day of 60", halved && days.contains(&60.0)),
            ("a day of 73,051", halved && days.contains(&73_051.0)),
            ("a day of 0", floats[..2].contains(&ZERO)),
            ("a day of -0", floats[..2].contains(&MINUS_ZERO)),
            ("a negative day", halved && any(&|day| day < 0.0 && day.is_finite())),
            ("a day past 2^32", halved && first == ROUND + 61.0),
            ("a half day and its median", halved && any(&|day| day.fract() == 0.5)),
            ("a day of NaN", any(&f64::is_nan)),
            ("a day infinite", any(&f64::is_infinite)),
            ("a day far off", any(&|day| day.is_finite() && day.abs() > 1e15)),
            ("reversed", halved && good && first > last),
        ]
    }

    fn median_edges(floats: &PeriodBits) -> Edges {
        let [first, last, median] = floats.map(f64::from_bits);
        if !is_good_day(first) || !is_good_day(last) || first > last {
            return Vec::new();
        }
        let right = (first + last) / 2.0;
        let off = (median - right).abs();
        let cut = right.fract() == 0.5 && median == right.floor();
        let last_bit = floats[2] ^ 1 == right.to_bits();
        vec![
            ("a median of NaN", median.is_nan()),
            ("a median infinite", median.is_infinite()),
            ("a median a half off", off == 0.5),
            ("a median a day off", off == 1.0),
            ("a median a quarter off", off == 0.25),
            ("a median a last bit off", last_bit),
            ("a median cut to a whole day", cut),
            ("a median of other days", off > 1.0 && (61.0..=73_050.0).contains(&median)),
        ]
    }

    fn gap_edges(earlier: &PeriodBits, later: &PeriodBits, answer: &str) -> Edges {
        let (right, refused) = (is_period(earlier) && is_period(later), refusal(answer) == 12);
        let sum = |floats: &PeriodBits| f64::from_bits(floats[0]) + f64::from_bits(floats[1]);
        let g = sum(later) - sum(earlier);
        let mut edges = vec![
            ("a gap of 0", answer == "0 0"),
            ("a gap of 499", answer == "0 499"),
            ("a gap of 500", refused && right && (3_649.0..3_656.0).contains(&g)),
            ("a gap below 0", refused && right && g < 0.0),
            ("a gap by halves", !refused && g % 2.0 != 0.0),
            ("equal days", !refused && earlier[0] == earlier[1]),
            ("a bad earlier one", refused && !is_period(earlier) && is_period(later)),
            ("a bad later one", refused && is_period(earlier) && !is_period(later)),
            ("two medians exchanged", refused && g != 0.0 && exchanged(earlier, later)),
        ];
        for floats in [earlier, later] {
            if !is_period(floats) {
                edges.extend(day_edges(floats));
                edges.extend(median_edges(floats));
            }
        }
        edges
    }

    /// Whether two periods have each other's median.
    fn exchanged(earlier: &PeriodBits, later: &PeriodBits) -> bool {
        let (mut one, mut other) = (*earlier, *later);
        std::mem::swap(&mut one[2], &mut other[2]);
        is_period(&one) && is_period(&other)
    }

    /// The edges of an export but for the place of an amount.
    fn export_edges(amounts: &[i64; AMOUNTS], period: &PeriodBits, number: u8) -> Edges {
        let bad = |index: &usize| !amount_range(*index).contains(&(amounts[*index] as i128));
        let (yearly, others) = ((0..20).any(|i| bad(&i)), (20..25).any(|i| bad(&i)));
        let wrong = !is_period(period);
        let mut edges = vec![
            ("9 alone", number == 9 && !wrong && !others),
            ("9 and 12", number == 9 && wrong && !others),
            ("9 and 11", number == 9 && !wrong && others),
            ("9, 12 and 11", number == 9 && wrong && others),
            ("12 alone", number == 12 && !yearly && !others),
            ("12 and 11", number == 12 && others),
            ("11 alone", number == 11),
            ("a half", number == 0 && f64::from_bits(period[2]).fract() == 0.5),
            ("equal days", number == 0 && period[0] == period[1]),
        ];
        if number == 12 {
            edges.extend(day_edges(period));
            edges.extend(median_edges(period));
        }
        edges
    }

    /// The places of an export's amounts: the one bad one, or those at a limit.
    fn export_places(amounts: &[i64; AMOUNTS], number: u8) -> Vec<String> {
        let range = |index: usize| amount_range(index).into_inner();
        let amount = |index: usize| amounts[index] as i128;
        let past = (0..AMOUNTS).filter(|i| !amount_range(*i).contains(&amount(*i)));
        let past: Vec<usize> = past.collect();
        if let [index] = past[..] {
            let side = if amount(index) > range(index).1 { "above" } else { "below" };
            return vec![format!("export: one bad at {index}, {side}")];
        }
        let mut places = Vec::new();
        for index in (0..AMOUNTS).filter(|_| number == 0) {
            let (low, high) = range(index);
            let at = [("high", amount(index) == high), ("low", amount(index) == low)];
            places.extend(at.iter().filter(|(_, is)| *is).map(|(name, _)| (index, *name)));
        }
        places.iter().map(|(index, side)| format!("export: {side} at {index}")).collect()
    }

    /// Why a cell is bad at its index, by itself.
    fn fault(index: usize, cell: &CellBits) -> &'static str {
        let number = float(cell);
        let (low, high) =
            if index < AMOUNTS { amount_range(index).into_inner() } else { (61, 73_050) };
        match cell.kind {
            0 => "empty",
            kind if (kind == 2) != (index >= AMOUNTS) => "of another kind",
            _ if number.is_nan() => "NaN",
            _ if number == f64::INFINITY => "infinite",
            _ if number == f64::NEG_INFINITY => "minus infinite",
            _ if number.is_subnormal() => "next to 0",
            _ if number.abs() >= 9_007_199_254_740_992.0 => "far off",
            _ if number == high as f64 + 1.0 => "one above",
            _ if number == low as f64 - 1.0 => "one below",
            _ if cell.bits == ZERO => "0",
            _ if cell.bits == MINUS_ZERO => "-0",
            _ if number.fract().abs() == 0.5 => "a half",
            _ if [0.25, 0.75].contains(&number.fract().abs()) => "a quarter",
            _ if number.fract() != 0.0 => "a last bit",
            _ => "out of range",
        }
    }

    fn group(index: usize) -> &'static str {
        match (index, index % 4) {
            (25, _) => "first day",
            (26, _) => "last day",
            (27, _) => "median",
            (24, _) => "adjustment",
            (20..=23, _) => "balance",
            (_, 0) => "revenue",
            (_, 1) => "cap",
            (_, 2) => "floor",
            _ => "W",
        }
    }

    /// The indices of the cells that are bad by themselves.
    fn bad_by_themselves(cells: &[CellBits; CELLS]) -> Vec<usize> {
        let bad = |index: &usize| print_cell(*index as u32, &cells[*index].cell()).is_err();
        (0..CELLS).filter(bad).collect()
    }

    /// The edges of cells that are read but for the place of a cell.
    fn read_edges(cells: &[CellBits; CELLS], number: u8) -> Edges {
        let bad = bad_by_themselves(cells);
        let days = [25, 26, 27].map(|index| cells[index].bits);
        let floats = days.map(f64::from_bits);
        let read = number == 0;
        let any = |is: &dyn Fn(usize, &CellBits) -> bool| {
            read && cells.iter().enumerate().any(|(index, cell)| is(index, cell))
        };
        let zero = |w: bool, bits: u64| {
            any(&|index, cell| is_yearly_w(index) == w && cell.kind == 1 && cell.bits == bits)
        };
        let related = number == 18 && bad.is_empty();
        let mut edges = vec![
            ("two bad cells", number == 18 && bad.len() == 2),
            ("a W of 0", zero(true, ZERO)),
            ("a W of -0", zero(true, MINUS_ZERO)),
            ("0 elsewhere", zero(false, ZERO)),
            ("-0 elsewhere", zero(false, MINUS_ZERO)),
            ("empty with bits", any(&|_, cell| cell.kind == 0 && cell.bits != 0)),
            ("equal days", read && days[0] == days[1]),
            ("a half median", read && floats[2].fract() == 0.5),
            ("day 61", read && floats[0] == 61.0),
            ("day 73,050", read && floats[1] == 73_050.0),
            ("a last day before the first", related && floats[0] > floats[1]),
            ("a last day a day before it", related && floats[0] == floats[1] + 1.0),
        ];
        if related {
            edges.extend(median_edges(&days));
        }
        edges
    }

    /// The places of cells that are read: the one bad one, or the W that are
    /// empty and the amounts at a limit.
    fn read_places(cells: &[CellBits; CELLS], answer: &str) -> Vec<String> {
        let bad = bad_by_themselves(cells);
        if refusal(answer) == 18 {
            let index: usize = answer.split(' ').nth(1).unwrap().parse().unwrap();
            let one = bad == [index] || bad.is_empty();
            assert!(bad.first().is_none_or(|first| index <= *first));
            return one.then(|| format!("read: one bad at {index}")).into_iter().collect();
        }
        let mut places = Vec::new();
        for (index, cell) in cells[..AMOUNTS].iter().enumerate() {
            let (low, high) = amount_range(index).into_inner();
            places.extend((cell.kind == 0).then(|| format!("read: empty at {index}")));
            let at = |limit: i128| cell.kind == 1 && float(cell) == limit as f64;
            places.extend(at(high).then(|| format!("read: high at {index}")));
            places.extend(at(low).then(|| format!("read: low at {index}")));
        }
        places
    }

    fn print_edges(index: u32, cell: &CellBits, number: u8) -> Edges {
        let (printed, x) = (number == 0, float(cell));
        let w = printed && is_yearly_w(index as usize);
        let median = |at: f64| index == 27 && cell.kind == 2 && x == at;
        vec![
            ("an empty W", w && cell.kind == 0),
            ("a W of 0", w && cell.kind == 1 && cell.bits == ZERO),
            ("a W of -0", w && cell.kind == 1 && cell.bits == MINUS_ZERO),
            ("a cap of -0", printed && index % 4 == 1 && cell.bits == MINUS_ZERO),
            ("a negative number", printed && cell.kind == 1 && x < 0.0),
            ("10^9", printed && x == 1e9),
            ("-10^10", printed && x == -1e10),
            ("3 x 10^10", printed && x == 3e10),
            ("a half median", printed && index == 27 && x.fract() == 0.5),
            ("a whole median", printed && index == 27 && x.fract() == 0.0),
            ("median 61", printed && median(61.0)),
            ("median 73,050", printed && median(73_050.0)),
            ("median 60.5", !printed && median(60.5)),
            ("median 73,050.5", !printed && median(73_050.5)),
        ]
    }

    /// The index that is printed, with a good cell or a bad one.
    fn print_place(index: u32, cell: &CellBits, number: u8) -> String {
        if index as usize >= CELLS {
            let good = (0..28).any(|at| print_cell(at, &cell.cell()).is_ok());
            return format!("print: past the last at {index}, {good}");
        }
        format!("print: {number} at {index}")
    }

    /// What a call tries of the rules on workbooks, under the name of the call.
    fn edges(_: &Desk, call: &Call, answer: &str) -> Vec<String> {
        let number = || refusal(answer);
        match call {
            Call::MakePeriod { first, last } => {
                named("make", making_edges(*first, *last, number()))
            }
            Call::GapOfMedians { earlier, later } => {
                named("gap", gap_edges(earlier, later, answer))
            }
            Call::Export { amounts, period } => {
                let mut edges = named("export", export_edges(amounts, period, number()));
                edges.extend(export_places(amounts, number()));
                edges
            }
            Call::ReadCells { cells } => {
                let mut edges = named("read", read_edges(cells, number()));
                edges.extend(read_places(cells, answer));
                edges
            }
            Call::PrintCell { index, cell } => {
                let mut edges = named("print", print_edges(*index, cell, number()));
                edges.push(print_place(*index, cell, number()));
                edges
            }
            _ => Vec::new(),
        }
    }

    #[test]
    fn the_edges_of_workbooks_are_frequent() {
        let seen = seen_in(BLOCKS, Generator::workbook_block, edges);
        let periods = 11 + 8;
        let (exporting, reading) = (9 + periods + 4 * AMOUNTS, 12 + 4 + CELLS + 5 + 2 * AMOUNTS);
        let all = 9 + 9 + periods + exporting + reading + 14 + 2 * CELLS + 2 * 4;
        assert_eq!(seen.len(), all, "{seen:?}");
        assert!(seen.values().all(|times| *times >= 10), "{seen:?}");
    }

    /// Where cells are bad by themselves, and why.
    fn faults(_: &Desk, call: &Call, _: &str) -> Vec<(&'static str, &'static str)> {
        match call {
            Call::ReadCells { cells } => {
                let bad = bad_by_themselves(cells);
                bad.iter().map(|index| (group(*index), fault(*index, &cells[*index]))).collect()
            }
            Call::PrintCell { index: index @ 0..=27, cell }
                if print_cell(*index, &cell.cell()).is_err() =>
            {
                vec![(group(*index as usize), fault(*index as usize, cell))]
            }
            _ => Vec::new(),
        }
    }

    /// Each way in which a cell is bad, in each kind of place: a yearly W may be
    /// empty, and an amount may be 0.
    #[test]
    fn cells_are_bad_in_every_way() {
        let seen = seen_in(BLOCKS, Generator::workbook_block, faults);
        assert_eq!(seen.len(), 6 * 13 - 1 + 3 * 15, "{seen:?}");
        assert!(seen.values().all(|times| *times >= 3), "{seen:?}");
    }

    /// What reading and exporting again make of a cell (rule 19.8).
    fn again(index: usize, cell: &CellBits) -> CellBits {
        match (cell.kind, float(cell) == 0.0) {
            (1, true) if is_yearly_w(index) => empty(),
            (1, true) => number(0.0),
            _ => *cell,
        }
    }

    #[test]
    fn cells_go_there_and_back() {
        let mut generator = Generator::new(6);
        let (mut exported, mut read) = (0, 0);
        for (call, _) in (0..40).flat_map(|_| generator.workbook_block().calls) {
            if let Call::Export { amounts, period } = &call {
                let period = WorkbookPeriod::of_bits(*period);
                let Ok(cells) = export(amounts, &period) else { continue };
                assert_eq!(read_cells(&cells), Ok((*amounts, period)));
                exported += 1;
            }
            if let Call::ReadCells { cells } = &call {
                let Ok((amounts, period)) = read_cells(&cells.map(|cell| cell.cell())) else {
                    continue;
                };
                let back = export(&amounts, &period).unwrap().map(|cell| CellBits::of(&cell));
                let expected = std::array::from_fn(|index| again(index, &cells[index]));
                assert_eq!(back, expected);
                assert!((0..).zip(&back).all(|(at, cell)| print_cell(at, &cell.cell()).is_ok()));
                read += 1;
            }
        }
        assert!(exported > 100 && read > 100, "{exported} {read}");
    }
}
