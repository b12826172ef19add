//! Single values, biased to the edges of their ranges.

use super::random::Random;
use crate::model::book::Book;
use crate::model::calendar::year_minutes;
use crate::model::log::{Slot, LAST_REGIME_END};
use crate::model::settlement::Period;
use crate::model::year::Line;
use crate::script::YearFields;

pub const MOST: i64 = 1_000_000_000;

impl Random {
    /// A number of 32 bits near an edge of one.
    pub fn edge_u32(&mut self) -> u32 {
        self.pick(&[0, 1, 1 << 31, (1 << 31) - 1, u32::MAX, u32::MAX - 1, u32::MAX - 1_439])
    }

    pub fn edge_i64(&mut self) -> i64 {
        let edges = [i64::MIN, i64::MIN + 1, i64::MAX, i64::MAX - 1, 1 << 32, -(1 << 32), 0];
        self.pick(&edges)
    }

    pub fn edge_u64(&mut self) -> u64 {
        self.pick(&[u64::MAX, 1 << 63, 1 << 32, (1 << 32) + 1, (1 << 32) + 64, u64::MAX - 399])
    }

    pub fn year_number(&mut self) -> u8 {
        match self.below(9) {
            0 => self.pick(&[0, 26, 27, 255, 128]),
            1 | 2 => self.pick(&[1, 25]),
            3 => self.pick(&[2, 24]),
            _ => self.fair_number(),
        }
    }

    pub fn fair_number(&mut self) -> u8 {
        self.between(1, 25) as u8
    }

    /// Room for so many bytes: exactly enough, one less, none, more.
    pub fn room_for(&mut self, length: u32) -> u32 {
        match self.below(10) {
            0..=2 => length,
            3 | 4 => length.saturating_sub(1),
            5 => 0,
            6 => length + 1,
            7 => length + self.below(60) as u32,
            8 => self.below(length as u64 + 1) as u32,
            _ if self.one_in(50) => 65_535,
            _ => length + 3,
        }
    }

    /// Any minute, most of them in the licence's time.
    pub fn minute(&mut self) -> u32 {
        let near = self.between(-1, 1);
        let minute = match self.below(14) {
            0 => self.pick(&[0, 1, 1_439, 1_440, 1_441]) as i128,
            1 => self.pick(&[12_579_840, 12_579_841, 13_632_480, 13_632_481]) as i128 + near,
            2 => self.edge_u32() as i128,
            3 | 4 => {
                let number = self.fair_number();
                year_minutes(number, LAST_REGIME_END).unwrap().0 + near
            }
            5..=7 => self.between(0, 9_467) * 1_440 + near,
            _ => self.between(0, LAST_REGIME_END as i128),
        };
        minute.clamp(0, u32::MAX as i128) as u32
    }

    pub fn mw(&mut self) -> u16 {
        if self.one_in(6) {
            self.pick(&[0, 1_001, 65_535])
        } else {
            self.fair_mw()
        }
    }

    pub fn fair_mw(&mut self) -> u16 {
        match self.below(5) {
            0 => 1,
            1 => 999,
            2 => 1_000,
            _ => self.between(1, 1_000) as u16,
        }
    }

    /// A cause, the usual one in three of four.
    pub fn fair_cause(&mut self) -> u8 {
        match self.below(16) {
            0 | 1 => 2,
            2 => 255,
            3 => self.between(3, 254) as u8,
            _ => 1,
        }
    }

    /// A cause, now and then 0.
    pub fn cause(&mut self) -> u8 {
        if self.one_in(20) {
            0
        } else {
            self.fair_cause()
        }
    }

    pub fn fair_regime_end(&mut self) -> u32 {
        match self.below(8) {
            0 => 12_579_841,
            1 => 12_579_840 + 1_440,
            2 => 13_632_479,
            3 => self.between(12_579_841, 13_632_480) as u32,
            _ => LAST_REGIME_END,
        }
    }

    pub fn bad_regime_end(&mut self) -> u32 {
        self.pick(&[12_579_840, 13_632_481, 0, u32::MAX, 12_579_839, 13_632_482, 1 << 31])
    }

    /// A yearly amount in range.
    pub fn fair_amount(&mut self) -> i64 {
        match self.below(9) {
            0 => self.pick(&[0, 1, -1]),
            1 => self.pick(&[MOST, -MOST, MOST - 1, 1 - MOST]),
            // A half in the carry at equal index.
            2 | 3 => 1_250 * (2 * self.between(-2_000, 2_000) as i64 + 1),
            4 | 5 => self.between(-1_000, 1_000) as i64,
            6 => self.between(-1_000_000, 1_000_000) as i64,
            _ => self.between(-MOST as i128, MOST as i128) as i64,
        }
    }

    /// An amount just past its range, or far past it.
    pub fn bad_amount(&mut self) -> i64 {
        self.pick(&[MOST + 1, -MOST - 1, i64::MIN, i64::MAX, i64::MIN + 1, 1 << 32, -(1 << 40)])
    }

    /// An index, a factor or the like: mostly round numbers and limits.
    pub fn fair_pppi(&mut self) -> u32 {
        match self.below(4) {
            0 => self.pick(&[5_000, 5_001, 49_999, 50_000]),
            1 => self.pick(&[10_000, 10_200, 11_000, 15_000]),
            2 => self.between(9_000, 13_000) as u32,
            _ => self.between(5_000, 50_000) as u32,
        }
    }

    pub fn bad_pppi(&mut self) -> u32 {
        self.pick(&[0, 4_999, 50_001, u32::MAX, 1 << 16, 10_000 + (1 << 16)])
    }

    pub fn fair_rate(&mut self) -> u32 {
        match self.below(4) {
            0 => self.pick(&[1, 2, 199_999, 200_000]),
            // Halves in the conversion.
            1 => self.pick(&[50_000, 150_000, 12_500, 100_000]),
            _ => self.between(1, 200_000) as u32,
        }
    }

    pub fn bad_rate(&mut self) -> u32 {
        self.pick(&[0, 200_001, u32::MAX, 1 << 18])
    }

    pub fn fair_aic(&mut self) -> u16 {
        match self.below(3) {
            0 => self.pick(&[0, 1, 19_999, 20_000]),
            1 => self.pick(&[10_000, 10_200, 9_800, 5_000, 15_000]),
            _ => self.between(0, 20_000) as u16,
        }
    }

    pub fn fair_part(&mut self) -> u16 {
        match self.below(4) {
            0 => self.pick(&[0, 1, 9_178, 9_999, 5_000]),
            1 => self.between(0, 10_000) as u16,
            _ => 10_000,
        }
    }

    /// A line in range, with halves in euro lines.
    pub fn fair_line(&mut self, rate: u32) -> Line {
        let kind = self.between(1, 11) as u8;
        let currency = self.below(2) as u8;
        let mut amount = self.fair_amount();
        if currency == 1 && self.one_in(2) {
            // amount x rate is an odd multiple of 50,000 where the rate is odd.
            let odd = 2 * self.between(-9_000, 9_000) as i64 + 1;
            amount = if rate % 2 == 1 { 50_000 * odd } else { odd };
        }
        let signed = matches!(kind, 2 | 7..=11);
        Line { kind, currency, amount: if signed { amount } else { amount.abs() } }
    }

    /// A line with one thing wrong.
    pub fn bad_line(&mut self, rate: u32) -> Line {
        let mut line = self.fair_line(rate);
        match self.below(5) {
            0 => line.kind = self.pick(&[0, 12, 255, 13]),
            1 => line.currency = self.pick(&[2, 255, 3]),
            2 | 3 => line.amount = self.bad_amount(),
            _ => {
                line.kind = self.pick(&[1, 3, 4, 5, 6]);
                line.amount = self.pick(&[-1, -MOST, -1_250]);
            }
        }
        line
    }

    /// Outages in order between two minutes, some touching, many across
    /// midnights, no two sharing one. In one row of eight there are other causes
    /// than the usual one.
    pub fn outages(&mut self, count: usize, low: i128, high: i128) -> Vec<Slot> {
        let mut outages = Vec::new();
        let by_cause = self.one_in(8);
        let mut at = low;
        for placed in 0..count {
            let share = (high - at) / (count - placed) as i128;
            let share = if self.one_in(3) { share.min(4_000) } else { share };
            let gap = if self.one_in(3) { 0 } else { self.between(0, share - 1) };
            let start = at + gap;
            let most_end = at + share;
            let mut end = match self.below(4) {
                0 => start + 1,
                1 => most_end,
                _ => self.between(start + 1, most_end),
            };
            let midnight = (start / 1_440 + 1) * 1_440;
            if midnight <= most_end && self.one_in(4) {
                end = midnight;
            }
            let mw = self.fair_mw();
            let cause = if by_cause { self.fair_cause() } else { 1 };
            outages.push(Slot { start: start as u32, end: end as u32, mw, cause });
            at = end;
        }
        outages
    }

    /// A level and two adjustments whose sum is in range.
    fn fair_level(&mut self, published: i64) -> [i64; 3] {
        let most = MOST as i128;
        if self.one_in(3) {
            return [published, 0, 0];
        }
        let sum = match self.below(5) {
            0 => 0,
            1 => most,
            2 => self.between(most - 3, most),
            3 => self.between(0, 200_000_000),
            _ => self.between(0, most),
        };
        self.split_sum(sum)
    }

    /// A sum in range as a level and two adjustments.
    pub fn split_sum(&mut self, sum: i128) -> [i64; 3] {
        let most = MOST as i128;
        let preliminary = match self.below(4) {
            0 => 0,
            1 => most,
            _ => self.between(0, most),
        };
        let rest = sum - preliminary;
        let (low, high) = ((rest - most).max(-most), (rest + most).min(most));
        let first = match self.below(3) {
            0 => low,
            1 => high,
            _ => self.between(low, high),
        };
        [preliminary as i64, first as i64, (rest - first) as i64]
    }

    pub fn fair_target(&mut self) -> u32 {
        match self.below(4) {
            0 => self.pick(&[0, 1, 20_000_000, 19_999_999]),
            1 => self.pick(&[8_039_999, 8_040_000, 8_040_001]),
            _ => self.between(0, 20_000_000) as u32,
        }
    }

    pub fn fair_book(&mut self, regime_end: u32) -> Book {
        let [pcl, pcac, orac] = self.fair_level(83_806_402);
        let [pfl, pcaf, oraf] = self.fair_level(48_807_317);
        Book {
            regime_end,
            target_1: self.fair_target(),
            target_25: self.fair_target(),
            pcl,
            pfl,
            pcac,
            pcaf,
            orac,
            oraf,
            miss_factor: self.fair_part(),
        }
    }

    /// Puts one entry of a book at or just past a limit.
    pub fn spoil_book(&mut self, book: &mut Book) {
        let side = self.between(-1, 1) as i64;
        match self.below(14) {
            0 => book.regime_end = self.bad_regime_end(),
            1 => book.target_1 = self.pick(&[20_000_000, 20_000_001, u32::MAX]),
            2 => book.target_25 = self.pick(&[20_000_000, 20_000_001, u32::MAX]),
            3 => book.pcl = self.pick(&[MOST, MOST + 1, -1, 0, i64::MIN, i64::MAX]),
            4 => book.pfl = self.pick(&[MOST, MOST + 1, -1, 0, i64::MIN, i64::MAX]),
            5 => book.pcac = self.bad_amount(),
            6 => book.pcaf = self.bad_amount(),
            7 => book.orac = self.bad_amount(),
            8 => book.oraf = self.bad_amount(),
            9 => book.miss_factor = self.pick(&[10_000, 10_001, 65_535]),
            // A sum at or past 0 or 10^9, the single entries in range.
            10 => (book.pcl, book.pcac, book.orac) = (MOST, side, 0),
            11 => (book.pcl, book.pcac, book.orac) = (5, -3, -2 + side),
            12 => (book.pfl, book.pcaf, book.oraf) = (MOST, 0, side),
            _ => (book.pfl, book.pcaf, book.oraf) = (MOST, -MOST + side, 0),
        }
    }

    pub fn fair_fields(&mut self, number: u8, line_count: usize) -> YearFields {
        YearFields {
            number,
            pppi: self.fair_pppi(),
            rate: self.fair_rate(),
            aic: self.fair_aic(),
            pyc: self.fair_part(),
            pyf: self.fair_part(),
            mark: self.one_in(3),
            w: if self.one_in(2) { 0 } else { self.fair_amount() },
            line_count: line_count as u64,
        }
    }

    /// Puts one field of a year past a limit.
    pub fn spoil_fields(&mut self, fields: &mut YearFields) {
        match self.below(9) {
            0 => fields.number = self.pick(&[0, 26, 255]),
            1 => fields.pppi = self.bad_pppi(),
            2 => fields.rate = self.bad_rate(),
            3 => fields.aic = self.pick(&[20_001, 65_535]),
            4 => fields.pyc = self.pick(&[10_001, 65_535]),
            5 => fields.pyf = self.pick(&[10_001, 65_535]),
            6 => fields.w = self.bad_amount(),
            7 => fields.line_count = fields.line_count.saturating_add(1),
            _ => fields.line_count = self.pick(&[65, u64::MAX, 1 << 32, 1 << 63, 66]),
        }
    }

    /// Two periods whose sums differ by a g that is often near a limit.
    pub fn periods(&mut self) -> (Period, Period) {
        if self.one_in(8) {
            return self.edge_periods();
        }
        let g = match self.below(8) {
            0 => self.between(-5, 5),
            1 => self.between(3_645, 3_652),
            2 => self.between(0, 60),
            3 => self.between(-4_000, 8_000),
            _ => self.between(0, 3_648),
        };
        let earlier = match self.below(6) {
            0 => {
                let length = self.pick(&[0, 1, 364]);
                Period { first: 61, last: 61 + length }
            }
            1 => {
                let last = 73_050 - self.below(2_000) as u32;
                Period { first: last - self.pick(&[0, 1, 365]), last }
            }
            _ => {
                let first = self.between(61, 70_000) as u32;
                Period { first, last: first + self.below(400) as u32 }
            }
        };
        let sum = (earlier.first as i128 + earlier.last as i128 + g).max(0);
        let half = self.below(200) as i128;
        let first = (sum / 2 - half).max(0);
        let mut later = Period { first: first as u32, last: (sum - first) as u32 };
        let mut earlier = earlier;
        if self.one_in(8) {
            self.spoil_periods(&mut earlier, &mut later);
        }
        (earlier, later)
    }

    /// Two periods at or just past the first or the last day number.
    fn edge_periods(&mut self) -> (Period, Period) {
        let low = self.one_in(2);
        let mut period = || {
            let inner = self.below(5) as u32;
            let (outer, one_past) = if low { (61, 60) } else { (73_050, 73_051) };
            let outer = if self.one_in(4) { one_past } else { outer };
            if low {
                Period { first: outer, last: 61 + inner }
            } else {
                Period { first: 73_050 - inner, last: outer }
            }
        };
        let (one, other) = (period(), period());
        let in_order = one.first + one.last <= other.first + other.last;
        if in_order {
            (one, other)
        } else {
            (other, one)
        }
    }

    fn spoil_periods(&mut self, earlier: &mut Period, later: &mut Period) {
        let day = self.pick(&[0, 60, 61, 73_050, 73_051, u32::MAX, 1 << 31]);
        match self.below(6) {
            0 => earlier.first = day,
            1 => earlier.last = day,
            2 => later.first = day,
            3 => later.last = day,
            4 => std::mem::swap(&mut earlier.first, &mut earlier.last),
            _ => std::mem::swap(&mut later.first, &mut later.last),
        }
    }

    /// What is to be settled.
    pub fn settled(&mut self) -> i64 {
        let limit = 10_000_000_000;
        match self.below(8) {
            0 => self.pick(&[limit, -limit, limit - 1, 1 - limit]),
            1 => self.pick(&[limit + 1, -limit - 1]),
            2 => self.edge_i64(),
            3 => self.pick(&[0, 1, -1, -10_000_001, 10_000_001]),
            4 => self.between(-1_000, 1_000) as i64,
            _ => self.between(-limit as i128, limit as i128) as i64,
        }
    }

    pub fn hundredths(&mut self) -> u32 {
        match self.below(6) {
            0 => self.pick(&[499, 500, 501]),
            1 => self.pick(&[0, 1, 100, 200, 300, 400]),
            2 => self.edge_u32(),
            _ => self.between(0, 499) as u32,
        }
    }
}
