//! Blocks about the book and the years.

use super::values::MOST;
use super::Generator;
use crate::model::book::Book;
use crate::model::log::Slot;
use crate::model::year::{Line, EURO, LINES};
use crate::script::{Call, YearFields};

/// Euros that are 10^9 and a half at their rate, and 10^9 less a half.
const EUROS_AT_LIMIT: [(u32, i64); 2] = [(150_000, 666_666_667), (155_000, 645_161_290)];

impl Generator {
    /// A log of few outages or none, with its regime end, and years 1 to 5.
    pub fn put_log_and_years(&mut self) -> u32 {
        let regime_end = self.random.fair_regime_end();
        let count = self.random.below(4) as usize;
        let outages = self.random.outages(count, 0, 12_000_000);
        self.put_log(&outages, regime_end);
        for k in 0..5 {
            let fields = self.random.fair_fields(k + 1, 0);
            self.call(Call::SetYear { k, fields });
        }
        regime_end
    }

    /// Books at and just past their limits, beside good and bad logs.
    pub fn book_work(&mut self) {
        let regime_end = self.put_log_and_years();
        for _ in 0..14 {
            let mut book = self.random.fair_book(regime_end);
            match self.random.below(5) {
                0 => book.regime_end = self.random.fair_regime_end(),
                1 => (),
                2 => {
                    self.levels_at_edge(&mut book);
                }
                _ => self.random.spoil_book(&mut book),
            }
            self.call(Call::SetBook { book });
            let year = self.random.year_number();
            let k = self.any_k();
            self.call(Call::Availability { year });
            self.call(Call::Target { year });
            self.call(Call::Levels { k });
            if self.random.one_in(3) {
                self.call(Call::Period);
            }
        }
        // 8 before 1, and 1 before 9.
        self.call(Call::set_slot(399, Slot { start: 0, end: 0, mw: 1, cause: 1 }));
        let book = Book { regime_end, ..Book::fresh() };
        let mut spoiled = book.clone();
        self.random.spoil_book(&mut spoiled);
        for book in [book, spoiled] {
            self.call(Call::SetBook { book });
            let year = self.random.pick(&[0, 1, 26]);
            self.call(Call::Availability { year });
            self.call(Call::Target { year });
            let k = self.any_k();
            self.call(Call::Levels { k });
            self.call(Call::Period);
        }
    }

    /// Years with fields and lines at and just past their limits.
    pub fn year_work(&mut self) {
        if self.random.one_in(2) {
            let book = self.random.fair_book(self.desk.log.regime_end);
            self.call(Call::SetBook { book });
        }
        for _ in 0..14 {
            let k = self.any_k();
            let number = self.random.fair_number();
            let count = match self.random.below(12) {
                0 => LINES,
                1 => LINES - 1,
                _ => self.random.below(6) as usize,
            };
            let mut fields = self.random.fair_fields(number, count);
            let mut lines = self.some_lines(count, fields.rate);
            match self.random.below(9) {
                0 | 1 => self.random.spoil_fields(&mut fields),
                2 if count > 0 => {
                    let place = self.random.below(count as u64) as usize;
                    lines[place] = self.random.bad_line(fields.rate);
                }
                3 if count < LINES => {
                    // A line slot past the count that is not zero.
                    let unused = [
                        Line { kind: 1, currency: 0, amount: 0 },
                        Line { kind: 0, currency: 1, amount: 0 },
                        Line { kind: 0, currency: 0, amount: 1 },
                        Line { kind: 0, currency: 0, amount: 1 << 32 },
                    ];
                    let line = self.random.pick(&unused);
                    let slot = self.random.pick(&[count, LINES - 1]) as u8;
                    self.put_year(k, fields.clone(), &lines);
                    self.call(Call::SetLine { k, slot, line });
                    self.year_calls(k);
                    continue;
                }
                4 if count > 0 => self.put_euros_at_limit(&mut fields, &mut lines),
                _ => (),
            }
            self.put_year(k, fields, &lines);
            self.year_calls(k);
        }
    }

    fn year_calls(&mut self, k: u8) {
        self.call(Call::Revenue { k });
        self.call(Call::Levels { k });
        if self.random.one_in(2) {
            let room = self.some_room(k);
            self.call(Call::Write { k, room });
        }
    }

    /// Lines of all kinds, of CMR alone, or of a total near 10^9.
    pub fn some_lines(&mut self, count: usize, rate: u32) -> Vec<Line> {
        let mut lines: Vec<Line> = (0..count).map(|_| self.random.fair_line(rate)).collect();
        match self.random.below(4) {
            0 => {
                for line in &mut lines {
                    line.kind = 2;
                    line.amount = self.random.between(-4, 4) as i64;
                }
            }
            1 if count >= 2 => {
                let (added, taken) =
                    (self.random.pick(&[1, 3, 10]), self.random.pick(&[7, 8, 9, 11]));
                for line in &mut lines {
                    *line = Line { kind: taken, currency: 0, amount: 0 };
                }
                let most = self.random.pick(&[MOST, MOST - 1]);
                lines[0] = Line { kind: added, currency: 0, amount: most };
                lines[1].amount = self.random.between(-2, 2) as i64;
                if self.random.one_in(2) {
                    lines[0].kind = taken;
                }
            }
            2 => {
                for line in &mut lines {
                    line.amount %= 1_000_000;
                }
            }
            _ => (),
        }
        lines
    }

    /// A rate, and one line whose half makes a total of 10^9, or a euro beside it.
    fn put_euros_at_limit(&mut self, fields: &mut YearFields, lines: &mut [Line]) {
        let (rate, euros) = self.random.pick(&EUROS_AT_LIMIT);
        fields.rate = rate;
        lines.iter_mut().for_each(|line| line.amount = 0);
        let amount = euros + self.random.pick(&[0, 0, 0, -1, 1]);
        lines[0] = Line { kind: self.random.pick(&[1, 2, 8, 11]), currency: EURO, amount };
    }

    /// Sets a year with its lines; its log is empty.
    pub fn put_year(&mut self, k: u8, fields: YearFields, lines: &[Line]) {
        self.call(Call::FreshYear { k });
        self.call(Call::SetYear { k, fields });
        for (slot, line) in lines.iter().enumerate() {
            self.call(Call::SetLine { k, slot: slot as u8, line: *line });
        }
    }
}

#[cfg(test)]
mod tests {
    use super::*;
    use crate::desk::Desk;
    use crate::generate::tests::{half_of, seen_in};

    /// The halves among the euro lines of a revenue, and those that make its limit.
    fn edges(desk: &Desk, call: &Call, answer: &str) -> Vec<String> {
        let Call::Revenue { k } = call else { return Vec::new() };
        let year = &desk.years[*k as usize];
        let Some(total) = answer.strip_prefix("0 ") else { return Vec::new() };
        let mut edges = Vec::new();
        for line in year.held_lines().iter().filter(|line| line.currency == EURO) {
            let product = line.amount as i128 * year.rate as i128;
            let Some(half) = half_of(product, 100_000) else { continue };
            edges.push(half.to_string());
            if [product / 100_000, product / 100_000 + 1].contains(&(MOST as i128)) {
                edges.push(format!("{total} of {half}"));
            }
        }
        edges
    }

    #[test]
    fn the_halves_of_euro_lines_are_frequent() {
        // About as many as there are among 100,000 calls.
        let seen = seen_in(60, |all| all.block("years", Generator::year_work), edges);
        assert_eq!(seen.len(), 4 + 2 * 2, "{seen:?}");
        assert!(seen.values().all(|times| *times >= 8), "{seen:?}");
    }
}
