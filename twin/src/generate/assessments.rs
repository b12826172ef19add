//! Blocks about the assessment, of rows and of a period.

use super::values::MOST;
use super::Generator;
use crate::model::assessment::{carry, Row};
use crate::model::log::Slot;
use crate::model::year::Line;
use crate::script::{Call, YearFields};

/// One of a row's four amounts.
fn amount(row: &mut Row, column: usize) -> &mut i64 {
    match column {
        0 => &mut row.revenue,
        1 => &mut row.cap,
        2 => &mut row.floor,
        _ => &mut row.w,
    }
}

/// What is carried into the row at a place.
fn carried_into(rows: &[Row; 5], place: usize, column: usize) -> i128 {
    let mut rows = *rows;
    let mut balance = 0;
    for at in 0..place {
        balance += *amount(&mut rows[at], column) as i128;
        balance = carry(balance, rows[at + 1].index, rows[at].index);
    }
    balance
}

impl Generator {
    pub fn assessment_work(&mut self) {
        for _ in 0..40 {
            let mut rows = self.plain_rows();
            match self.random.below(13) {
                0 | 1 => self.widen(&mut rows),
                2 | 3 => self.steer_to_limit(&mut rows),
                4 | 5 => self.close_floor(&mut rows),
                6 | 7 => self.spoil_rows(&mut rows),
                8 => self.hold_revenue(&mut rows),
                9 | 10 => self.carry_halves(&mut rows),
                11 => self.carry_half_to_limit(&mut rows),
                _ => (),
            }
            self.call(Call::Assess { rows });
        }
    }

    /// Small amounts, the floor at most the cap.
    fn plain_rows(&mut self) -> [Row; 5] {
        let index = self.random.fair_pppi();
        let steady = self.random.one_in(2);
        std::array::from_fn(|_| {
            let floor = self.random.fair_amount().abs() % 10_000_000;
            Row {
                index: if steady { index } else { self.random.between(9_000, 13_000) as u32 },
                revenue: self.random.fair_amount() % 20_000_000,
                cap: floor + self.random.between(0, 9_000_000) as i64,
                floor,
                w: self.random.fair_amount() % 10_000_000,
            }
        })
    }

    /// Amounts and indices anywhere in their ranges.
    fn widen(&mut self, rows: &mut [Row; 5]) {
        for row in rows {
            let (one, other) = (self.random.fair_amount().abs(), self.random.fair_amount().abs());
            let turned = self.random.one_in(12);
            *row = Row {
                index: self.random.fair_pppi(),
                revenue: self.random.fair_amount(),
                cap: if turned { one.min(other) } else { one.max(other) },
                floor: if turned { one.max(other) } else { one.min(other) },
                w: self.random.fair_amount(),
            };
        }
    }

    /// One of a row's four amounts, and a sign that it can have.
    fn column_and_sign(&mut self) -> (usize, i128) {
        let column = self.random.below(4) as usize;
        let sign = if (1..=2).contains(&column) || self.random.one_in(2) { 1 } else { -1 };
        (column, sign)
    }

    /// A balance at or just past 10^10 after one of the later years.
    fn steer_to_limit(&mut self, rows: &mut [Row; 5]) {
        let (column, sign) = self.column_and_sign();
        let place = self.random.between(1, 4) as usize;
        for row in rows.iter_mut() {
            row.index = 5_000 + self.random.below(3) as u32;
        }
        *amount(&mut rows[0], column) = sign as i64 * (MOST - self.random.below(1_000) as i64);
        // The index at which the carried part is a little below the limit.
        let before = carried_into(rows, place, column).abs().max(1);
        let wanted = self.random.between(9_200_000_000, 10_300_000_000);
        let index = (wanted * rows[place].index as i128 / before).clamp(5_000, 50_000);
        for row in rows[place..].iter_mut() {
            row.index = index as u32;
        }
        let side = self.random.pick(&[-1, 0, 0, 1, 1, 2]);
        let last = sign * (10_000_000_000 + side) - carried_into(rows, place, column);
        let lowest = if (1..=2).contains(&column) { 0 } else { -MOST as i128 };
        *amount(&mut rows[place], column) = last.clamp(lowest, MOST as i128) as i64;
        for row in rows[place + 1..].iter_mut() {
            row.index = 5_000;
        }
        if column == 2 && self.random.one_in(2) {
            // The cap follows the floor, so that no 10 is left.
            rows.iter_mut().for_each(|row| row.cap = row.floor);
        }
    }

    /// Balances that are halves where they are carried: odd multiples of 1,250 at
    /// one index, odd numbers from index 1.0388 to an odd multiple of 0.5.
    fn carry_halves(&mut self, rows: &mut [Row; 5]) {
        rows[0].index = self.random.pick(&[10_388, rows[0].index]);
        for place in 0..4 {
            let index = rows[place].index;
            let (next, unit) = match index {
                10_388 => (self.random.pick(&[5_000, 15_000, 25_000]), 1),
                _ if self.random.one_in(3) => (10_388, 1_250),
                _ => (index, 1_250),
            };
            rows[place + 1].index = next;
            for column in 0..4 {
                let carried = carried_into(rows, place, column);
                let wanted = match column {
                    1 => carried / unit + self.random.between(1, 4_000),
                    2 => carried / unit + self.random.between(1, 200),
                    _ => self.random.between(-4_000, 4_000),
                };
                *amount(&mut rows[place], column) = (unit * (wanted | 1) - carried) as i64;
            }
        }
    }

    /// A balance that is carried to 10^10 and a half, or a pound beside that: one
    /// and a half times 6,666,666,667, from index 1.0388 to 1.5.
    fn carry_half_to_limit(&mut self, rows: &mut [Row; 5]) {
        let (column, sign) = self.column_and_sign();
        let years = [(5_000, MOST), (5_000, MOST), (5_000, 900_000_000), (10_388, 0), (15_000, 0)];
        for (row, (index, most)) in rows.iter_mut().zip(years) {
            *row = Row { index, ..Row::default() };
            let less = if most > 0 { self.random.below(1_000) as i64 } else { 0 };
            *amount(row, column) = sign as i64 * (most - less);
        }
        let wanted = sign * (6_666_666_667 + self.random.pick(&[-1, 0, 0, 0, 1]));
        *amount(&mut rows[3], column) = (wanted - carried_into(rows, 3, column)) as i64;
        if column == 2 {
            rows.iter_mut().for_each(|row| row.cap = row.floor);
        }
    }

    /// The last floor balance at, just below or just above the cap balance.
    fn close_floor(&mut self, rows: &mut [Row; 5]) {
        rows[4].floor = 0;
        let difference = carried_into(rows, 4, 1) + rows[4].cap as i128 - carried_into(rows, 4, 2);
        let side = self.random.between(-1, 1);
        rows[4].floor = (difference + side).clamp(0, MOST as i128) as i64;
    }

    /// The last revenue balance beside floor or cap balance.
    fn hold_revenue(&mut self, rows: &mut [Row; 5]) {
        let column = self.random.pick(&[1, 2]);
        let level = carried_into(rows, 4, column) + *amount(&mut rows[4], column) as i128;
        let wanted = level + self.random.between(-1, 1) - carried_into(rows, 4, 0);
        rows[4].revenue = wanted.clamp(-MOST as i128, MOST as i128) as i64;
    }

    fn spoil_rows(&mut self, rows: &mut [Row; 5]) {
        if self.random.one_in(3) {
            self.steer_to_limit(rows);
        }
        let place = self.random.below(5) as usize;
        let bad = self.random.bad_amount();
        let row = &mut rows[place];
        match self.random.below(7) {
            0 | 1 => row.index = self.random.bad_pppi(),
            2 => row.revenue = bad,
            3 => row.cap = self.random.pick(&[-1, bad]),
            4 => row.floor = self.random.pick(&[-1, bad]),
            5 => row.w = bad,
            _ => *amount(row, 0) = self.random.pick(&[MOST + 1, -MOST - 1, MOST, -MOST]),
        }
    }

    /// Five years, mostly of one period, with book and running log.
    pub fn period_work(&mut self) {
        let regime_end = self.random.fair_regime_end();
        let count = self.random.below(6) as usize;
        let outages = self.random.outages(count, 0, regime_end as i128);
        self.put_log(&outages, regime_end);
        let first = self.random.pick(&[1, 6, 11, 16, 21]);
        for _ in 0..4 {
            let mut book = self.random.fair_book(regime_end);
            if self.random.one_in(2) {
                book.pcl = 83_806_402;
                book.pfl = self.random.pick(&[48_807_317, 48_807_317, 83_806_402, 90_000_000]);
                (book.pcac, book.orac, book.pcaf, book.oraf) = (0, 0, 0, 0);
            }
            self.call(Call::SetBook { book });
            let wild = self.random.one_in(4);
            for k in 0..5 {
                self.put_period_year(k, first + k, wild);
            }
            self.call(Call::Period);
            for _ in 0..4 {
                self.period_change(first);
            }
        }
    }

    fn put_period_year(&mut self, k: u8, number: u8, wild: bool) {
        let count = self.random.below(4) as usize;
        let mut fields = self.random.fair_fields(number, count);
        let mut lines = self.some_lines(count, fields.rate);
        if !wild {
            fields.pppi = self.random.between(9_500, 12_000) as u32;
            fields.aic = self.random.between(9_800, 10_200) as u16;
            fields.w %= 100_000_000;
            lines.iter_mut().for_each(|line| line.amount %= 90_000_000);
        }
        self.put_year(k, fields, &lines);
    }

    /// One thing changed, the call, and often the thing put back.
    fn period_change(&mut self, first: u8) {
        let k = self.any_k();
        let year = self.desk.years[k as usize].clone();
        let mut fields = YearFields::of(&year);
        let before = fields.clone();
        match self.random.below(9) {
            0 => fields.number = self.random.pick(&[first, first + 1, first + 4, first + 5, 0]),
            1 => self.random.spoil_fields(&mut fields),
            2 => {
                // Five years in order, but not of one period.
                for k in 0..5 {
                    let mut fields = self.random.fair_fields(first + k + 1, 0);
                    fields.pppi = 10_000;
                    self.put_year(k, fields, &[]);
                }
                self.call(Call::Period);
                for k in 0..5 {
                    self.put_period_year(k, first + k, false);
                }
                return;
            }
            3 => {
                // A balance above 10^10, its yearly amounts in range.
                fields.w = self.random.pick(&[MOST, -MOST]);
                fields.pppi = 5_000;
            }
            4 => {
                // Revenue above 10^9 in one year, and often a 9 in another.
                for (slot, amount) in [(0, MOST), (1, MOST), (2, MOST)] {
                    let line = Line { kind: 1, currency: 0, amount };
                    self.call(Call::SetLine { k, slot, line });
                }
                fields.line_count = 3;
                if self.random.one_in(2) {
                    let other = (k + 1) % 5;
                    let slot = 63;
                    let line = Line { kind: 0, currency: 0, amount: 1 };
                    self.call(Call::SetLine { k: other, slot, line });
                    self.call(Call::SetYear { k, fields });
                    self.call(Call::Period);
                    self.call(Call::SetLine { k: other, slot, line: Line::default() });
                }
                self.call(Call::Period);
                return self.put_period_year(k, first + k, false);
            }
            5 => {
                let outage = Slot { start: 3, end: 3, mw: 0, cause: 1 };
                self.call(Call::set_slot(399, outage));
                self.call(Call::Period);
                self.call(Call::Levels { k });
                return self.call(Call::set_slot(399, Slot::default()));
            }
            6 => {
                let good = self.desk.book.clone();
                let mut book = good.clone();
                self.random.spoil_book(&mut book);
                self.call(Call::SetBook { book });
                self.call(Call::Period);
                return self.call(Call::SetBook { book: good });
            }
            7 => fields.mark = !fields.mark,
            _ => fields.pppi = self.random.fair_pppi(),
        }
        self.call(Call::SetYear { k, fields });
        self.call(Call::Period);
        self.call(Call::Levels { k });
        if !self.random.one_in(5) {
            self.call(Call::SetYear { k, fields: before });
        }
    }
}

#[cfg(test)]
mod tests {
    use super::*;
    use crate::desk::Desk;
    use crate::generate::tests::{half_of, seen_in};

    /// The halves that an assessment carries, and those of them at its limit.
    fn edges(_: &Desk, call: &Call, answer: &str) -> Vec<String> {
        let Call::Assess { rows } = call else { return Vec::new() };
        if !answer.starts_with("0 ") {
            return Vec::new();
        }
        let mut edges = Vec::new();
        for (column, name) in ["A", "C", "F", "W"].iter().enumerate() {
            for place in 1..5 {
                let mut before = rows[place - 1];
                let own = *amount(&mut before, column) as i128;
                let balance = carried_into(rows, place - 1, column) + own;
                let product = balance * 10_388 * rows[place].index as i128;
                let divisor = 10_000 * before.index as i128;
                let Some(half) = half_of(product, divisor) else { continue };
                edges.push(format!("{name}: {half}"));
                if product.abs() / divisor == 10_000_000_000 {
                    edges.push(format!("{name} of 10^10 and more: {half}"));
                }
            }
        }
        edges
    }

    #[test]
    fn the_halves_of_carries_are_frequent() {
        // About as many as there are among 100,000 calls. C and F are not below 0.
        let seen = seen_in(90, |all| all.block("assessment", Generator::assessment_work), edges);
        assert_eq!(seen.len(), 2 * (4 + 2) + 2 * (2 + 1), "{seen:?}");
        assert!(seen.values().all(|times| *times >= 10), "{seen:?}");
    }
}
