//! What `workbook` reads: two days and five returns, good and broken.

use super::values::MOST;
use super::Generator;
use crate::model::calendar::year_minutes;
use crate::model::log::{Slot, LAST_REGIME_END};
use crate::model::year::{Line, Year, LINES};
use crate::model::yearly_return::{write, MOST_BYTES};

/// The outages of five years.
type Outages = [Vec<Slot>; 5];

/// An input in its parts; there may be more or fewer returns than five.
struct Input {
    days: (u32, u32),
    returns: Vec<Vec<u8>>,
}

impl Input {
    fn bytes(&self) -> Vec<u8> {
        let mut bytes = [self.days.0.to_be_bytes(), self.days.1.to_be_bytes()].concat();
        for one in &self.returns {
            bytes.extend((one.len() as u16).to_be_bytes());
            bytes.extend(one);
        }
        bytes
    }

    /// Where the days end, and then each return.
    fn borders(&self) -> Vec<usize> {
        let mut borders = vec![8];
        for one in &self.returns {
            borders.push(borders[borders.len() - 1] + 2 + one.len());
        }
        borders
    }
}

/// The returns of five years with these outages.
fn written(years: &mut [Year], outages: &Outages) -> Vec<Vec<u8>> {
    for (year, outages) in years.iter_mut().zip(outages) {
        year.log.hold(outages);
    }
    years.iter().map(|year| write(year, MOST_BYTES).unwrap()).collect()
}

fn minutes_of(number: u8) -> (i128, i128) {
    year_minutes(number, LAST_REGIME_END).unwrap()
}

impl Generator {
    /// What `workbook` may be given: good, refused by each number, broken.
    pub fn some_workbook_input(&mut self) -> Vec<u8> {
        let first = self.random.pick(&[1, 6, 11, 16, 21]);
        if self.random.one_in(6) {
            return self.good_input(first).bytes();
        }
        let outages = self.some_outages(first);
        let mut years: Vec<Year> = (0..5).map(|k| self.plain_year(first + k)).collect();
        if self.random.one_in(3) {
            self.spoil_assessment(&mut years);
        }
        let mut input = Input { days: self.input_days(), returns: written(&mut years, &outages) };
        match self.random.below(10) {
            0 | 1 => self.wrong_returns(&mut input, &years),
            2..=4 => return self.wrong_bytes(&input),
            _ => (),
        }
        input.bytes()
    }

    /// An input that is filled from, but for amounts that happen to be too large.
    fn good_input(&mut self, first: u8) -> Input {
        let outages = self.few_outages(first);
        let mut years: Vec<Year> = (0..5).map(|k| self.plain_year(first + k)).collect();
        let day = self.random.between(61, 70_000) as u32;
        let days = (day, day + self.random.below(2_000) as u32);
        Input { days, returns: written(&mut years, &outages) }
    }

    fn some_outages(&mut self, first: u8) -> Outages {
        let mut outages = match self.random.below(10) {
            0 | 1 => self.many_outages(first),
            2 | 3 => return self.full_outages(first),
            4 => return Outages::default(),
            _ => self.few_outages(first),
        };
        if self.random.one_in(4) {
            self.overlap_in_a_year(&mut outages);
        }
        if !self.random.one_in(3) {
            self.across_a_year_end(&mut outages, first);
        }
        outages
    }

    /// Beside an outage of each year one of another cause, up to 1,000 MW.
    fn overlap_in_a_year(&mut self, outages: &mut Outages) {
        for outages in outages.iter_mut().filter(|outages| (1..400).contains(&outages.len())) {
            let place = self.random.below(outages.len() as u64) as usize;
            let one = outages[place];
            if one.mw < 1_000 && one.cause < 255 {
                let other = Slot { mw: 1_000 - one.mw, cause: one.cause + 1, ..one };
                outages.insert(place + 1, other);
            }
        }
    }

    /// The two days, one time in four out of range or reversed.
    fn input_days(&mut self) -> (u32, u32) {
        let random = &mut self.random;
        let first = random.between(61, 70_000) as u32;
        match random.below(20) {
            0 => (random.pick(&[0, 60, 60]), first),
            1 | 11 => (random.pick(&[0, first]), u32::MAX),
            2 => (first + 1, first),
            3 => (random.pick(&[60, 73_051]), 73_051),
            4 => (first, 73_051),
            5 | 6 => (61, random.pick(&[61, 62, first])),
            7 | 8 => (random.pick(&[73_049, 73_050, first]), 73_050),
            9 | 10 => (first, first),
            _ => (first, first + random.pick(&[1, 364, 365, 1_826])),
        }
    }

    /// A year with small amounts, so that its period is assessed.
    fn plain_year(&mut self, number: u8) -> Year {
        let count = if self.random.one_in(25) { LINES } else { self.random.below(4) as usize };
        let fields = self.random.fair_fields(number, count);
        let mut year = Year {
            number,
            rate: fields.rate,
            pppi: self.random.between(9_500, 12_000) as u32,
            aic: self.random.between(9_800, 10_200) as u16,
            mark: fields.mark,
            w: fields.w % 100_000_000,
            line_count: count as u64,
            ..Year::fresh()
        };
        if self.random.one_in(4) {
            year.pyf = fields.pyf;
        }
        for (slot, line) in self.some_lines(count, fields.rate).iter().enumerate() {
            year.lines[slot] = Line { amount: line.amount % 90_000_000, ..*line };
        }
        year
    }

    /// Some outages in each year, none in many.
    fn few_outages(&mut self, first: u8) -> Outages {
        std::array::from_fn(|k| {
            let (start, end) = minutes_of(first + k as u8);
            let count = self.random.pick(&[0, 0, 1, 2, 5]);
            let start = if self.random.one_in(4) { end - 3_000 } else { start };
            self.random.outages(count, start, end)
        })
    }

    /// About 400 in all: the same in each year, or all but a few in one. Now and
    /// then as many as the returns can have.
    fn many_outages(&mut self, first: u8) -> Outages {
        let all = self.random.pick(&[399, 400, 400, 401, 401, 402, 2_000]);
        let most = self.random.below(5) as usize;
        let even = all == 2_000 || self.random.one_in(3);
        std::array::from_fn(|k| {
            let count = match (even, k == most) {
                (true, _) => all / 5 + (k < all % 5) as usize,
                (false, true) => all.min(400),
                (false, false) if k == (most + 1) % 5 => all - all.min(400),
                _ => 0,
            };
            let (start, end) = minutes_of(first + k as u8);
            self.random.outages(count, start, end - 3_000)
        })
    }

    /// Outages of which the 400th or the 401st is entered beside a clash, or
    /// alone; some of a return run into the next year.
    fn full_outages(&mut self, first: u8) -> Outages {
        let k = self.random.below(3) as usize;
        let at = |over: usize| minutes_of(first + (k + over) as u8).0 as u32;
        let outage = |start: u32, end: u32| Slot { start, end, mw: 1, cause: 1 };
        let minutes = |from: u32, count: u32| {
            (from..from + count).map(move |start| outage(start, start + 1)).collect::<Vec<_>>()
        };
        // Over the end of year k, from there on, and in its last minute, which has
        // no room, or now and then room for it.
        let mw = self.random.pick(&[1_000, 1_000, 1_000, 999]);
        let full = |start: u32, end: u32| Slot { start, end, mw, cause: 1 };
        let (over, behind) = (full(at(1) - 1, at(1) + 90), outage(at(1) + 90, at(1) + 91));
        let clash = outage(at(1) + 89, at(1) + 91);
        let mut outages = Outages::default();
        outages[k] = [minutes(at(0), 399), vec![over]].concat();
        match self.random.below(6) {
            0 => outages[k + 1] = vec![clash],
            1 => outages[k + 1] = vec![behind],
            2 => {
                outages[k + 1] = vec![behind, full(at(2) - 1, at(2) + 90)];
                outages[k + 2] = vec![outage(at(2) + 89, at(2) + 91)];
            }
            3 => {
                outages[k] = vec![over];
                outages[k + 1] = [vec![clash], minutes(at(1) + 100, 399)].concat();
            }
            _ => {
                outages[k].remove(0);
                outages[k + 1] = vec![behind];
            }
        }
        outages
    }

    /// An outage from one year into the next or the one after it, and in the
    /// return of the year that it ends in one that starts where it ends, or a
    /// minute before.
    fn across_a_year_end(&mut self, outages: &mut Outages, first: u8) {
        let over = if self.random.one_in(3) { 2 } else { 1 };
        let from = self.random.below(5 - over as u64) as usize;
        let (_, end) = minutes_of(first + from as u8);
        let (next_start, _) = minutes_of(first + (from + over) as u8);
        let random = &mut self.random;
        let long = Slot {
            start: end as u32 - random.pick(&[1, 30, 30]),
            end: next_start as u32 + random.pick(&[1, 90, 90, 1_440, 2_000]),
            mw: random.fair_mw(),
            cause: random.fair_cause(),
        };
        let start = long.end - random.pick(&[0, 1, 1]);
        let room = 1_000 - long.mw;
        let any = random.fair_mw();
        let mw = random.pick(&[room.max(1), room + 1, any]);
        let cause = random.fair_cause();
        let next = Slot { start, end: start + random.pick(&[1, 60]), mw, cause };
        outages[from].retain(|outage| outage.end <= long.start);
        outages[from].truncate(399);
        outages[from].push(long);
        if over == 2 && !random.one_in(4) {
            outages[from + 1].clear();
        }
        let later = &mut outages[from + over];
        later.retain(|outage| outage.start >= next.end);
        later.truncate(399);
        later.insert(0, next);
    }

    /// Amounts that the assessment refuses: 11 by revenue or by a balance, 10 by
    /// caps below the floors.
    fn spoil_assessment(&mut self, years: &mut [Year]) {
        let k = self.random.below(4) as usize;
        let sign = self.random.pick(&[1, -1]);
        let way = self.random.below(6);
        if way >= 2 {
            let aic = self.random.pick(&[0, 2_000, 5_000]);
            years.iter_mut().for_each(|year| year.aic = aic);
        }
        match way {
            0 | 4 => {
                years[k].lines[0] = Line { kind: 10, currency: 0, amount: sign * MOST };
                years[k].lines[1] = Line { kind: 10, currency: 0, amount: sign };
                years[k].line_count = years[k].line_count.max(2);
            }
            1 | 5 => {
                years[k].w = sign * MOST;
                (years[k].pppi, years[k + 1].pppi) = (5_000, 50_000);
            }
            _ => (),
        }
    }

    /// Returns in the wrong order, too many, too few, or one that is refused.
    fn wrong_returns(&mut self, input: &mut Input, years: &[Year]) {
        let k = self.random.below(5) as usize;
        let other = (k + 1 + self.random.below(4) as usize) % 5;
        let returns = &mut input.returns;
        match self.random.below(11) {
            0 => returns.swap(k, other),
            1 => returns[k] = returns[other].clone(),
            2 => {
                returns.remove(k);
            }
            3 => returns.push(returns[k].clone()),
            4 => returns[k] = self.bare_return((years[k].number + 4) % 25 + 1),
            5 => {
                let first = years[0].number.min(16) + self.random.pick(&[1, 2, 4]);
                *returns = (0..5).map(|k| self.bare_return(first + k)).collect();
            }
            6 => returns[k].clear(),
            7 => returns[k].resize(self.random.pick(&[8_192, 8_193, 8_193, 8_193, 9_000]), 0),
            8 => {
                returns[k].pop();
            }
            9 => returns[k].extend([0, 0, 0]),
            _ => {
                let bytes = returns[k].clone();
                returns[k] = self.damage_bytes(bytes);
            }
        }
    }

    /// A return without outages.
    fn bare_return(&mut self, number: u8) -> Vec<u8> {
        write(&self.plain_year(number), MOST_BYTES).unwrap()
    }

    /// Bytes that are cut, too many, or with a wrong length of a return.
    fn wrong_bytes(&mut self, input: &Input) -> Vec<u8> {
        let mut bytes = input.bytes();
        let borders = input.borders();
        let k = self.random.below(5) as usize;
        match self.random.below(10) {
            0 => bytes.truncate(self.random.below(bytes.len() as u64) as usize),
            1 | 2 => bytes.truncate(self.random.pick(&[0, 0, 1, 2, 3, 4, 4, 6, 7, 8])),
            3 | 4 => bytes.truncate(borders[k] + self.random.pick(&[0, 0, 1, 2, 3])),
            5 => bytes.extend(vec![0; self.random.pick(&[1, 1, 2, 30])]),
            6 | 7 => bytes.resize(self.random.pick(&[40_978, 40_979, 40_980, 65_535]), 0),
            _ => {
                let length = input.returns[k].len() as u16;
                let wrong = self.random.pick(&[length - 1, length + 1, 0, u16::MAX]);
                bytes[borders[k]..borders[k] + 2].copy_from_slice(&wrong.to_be_bytes());
            }
        }
        bytes
    }
}

#[cfg(test)]
mod tests {
    use super::*;
    use crate::model::assessment::{assess, rows_of_period};
    use crate::model::book::Book;
    use crate::model::filling::fill;
    use crate::model::log::Log;
    use crate::model::revenue::assessed_revenue;
    use crate::model::workbook::WorkbookPeriod;
    use crate::model::yearly_return::read;
    use std::collections::BTreeMap;

    type Edges = Vec<(&'static str, bool)>;

    /// An input as far as it goes: the days, the returns that are there whole,
    /// and the bytes that are left.
    struct Parts<'a> {
        days: Option<(u32, u32)>,
        returns: Vec<&'a [u8]>,
        left: &'a [u8],
    }

    fn parts(bytes: &[u8]) -> Parts<'_> {
        let Some((head, mut left)) = bytes.split_at_checked(8) else {
            return Parts { days: None, returns: Vec::new(), left: bytes };
        };
        let day = |at: usize| u32::from_be_bytes(head[at..at + 4].try_into().unwrap());
        let mut returns = Vec::new();
        while let Some((length, behind)) = left.split_at_checked(2) {
            let length = u16::from_be_bytes([length[0], length[1]]) as usize;
            let Some((one, behind)) = behind.split_at_checked(length) else { break };
            returns.push(one);
            left = behind;
        }
        Parts { days: Some((day(0), day(4))), returns, left }
    }

    /// The edges of an input that is cut or goes on.
    fn length_edges(bytes: &[u8], parts: &Parts) -> Edges {
        let (length, whole, left) = (bytes.len(), parts.returns.len(), parts.left.len());
        let five = whole == 5 && left > 0;
        vec![
            ("no bytes", length == 0),
            ("cut in the first day", (1..4).contains(&length)),
            ("cut behind the first day", length == 4),
            ("cut in the last day", (5..8).contains(&length)),
            ("cut behind the days", length == 8),
            ("cut behind a return", (1..4).contains(&whole) && left == 0),
            ("four returns", whole == 4 && left == 0),
            ("cut in a length", whole < 5 && left == 1 && length > 8),
            ("cut behind a length", whole < 5 && left == 2 && length > 8),
            ("cut in a return", whole < 5 && left > 2 && length > 8),
            ("a byte more", five && left == 1),
            ("bytes more", five && left > 1 || whole > 6),
            ("a sixth return", whole == 6 && left == 0 && !parts.returns[5].is_empty()),
            ("40,978 bytes", length == 40_978),
            ("40,979 bytes", length == 40_979),
            ("more than 40,979 bytes", length > 40_979),
        ]
    }

    /// The edges of five returns, of which one is refused or in a wrong place.
    fn return_edges(returns: &[&[u8]]) -> Edges {
        let years: Vec<Option<u8>> =
            returns.iter().map(|one| read(one).ok().map(|year| year.number)).collect();
        let refused = |place: usize| years[place].is_none();
        let others = (0..5).filter(|place| refused(*place)).count() == 1;
        let numbers: Vec<u8> = years.iter().flatten().copied().collect();
        let all = numbers.len() == 5;
        let steps = numbers.windows(2).filter(|pair| pair[0] + 1 == pair[1]).count();
        let mut sorted = numbers.clone();
        sorted.sort_unstable();
        let same_period = sorted.iter().all(|number| (number - 1) / 5 == (sorted[0] - 1) / 5);
        vec![
            ("the first return refused", others && refused(0)),
            ("the second return refused", others && refused(1)),
            ("the third return refused", others && refused(2)),
            ("the fourth return refused", others && refused(3)),
            ("the fifth return refused", others && refused(4)),
            ("a return of no bytes", returns.iter().any(|one| one.is_empty())),
            ("a return of 8,193 bytes", returns.iter().any(|one| one.len() == 8_193)),
            (
                "years in another order",
                all && same_period && sorted.windows(2).all(|p| p[0] < p[1]),
            ),
            ("a year twice", all && sorted.windows(2).any(|pair| pair[0] == pair[1])),
            ("five years of two periods", all && steps == 4),
            ("a year of another period", all && !same_period && steps < 4),
        ]
    }

    /// The edges of the days, of which a period is made.
    fn day_edges((first, last): (u32, u32), number: u8) -> Edges {
        let (filled, refused) = (number == 0, number == 12);
        vec![
            ("first day 61", filled && first == 61),
            ("first day 60", refused && first == 60),
            ("first day 0", refused && first == 0),
            ("last day 73,050", filled && last == 73_050),
            ("last day 73,051", refused && last == 73_051),
            ("last day near 2^32", refused && last == u32::MAX),
            ("days reversed", refused && first == last.saturating_add(1)),
            ("equal days", filled && first == last),
            ("a half", filled && (first ^ last) & 1 == 1),
        ]
    }

    /// The outages of five years, in the order of their entering.
    fn outages_of(years: &[Year]) -> Vec<Slot> {
        years.iter().flat_map(|year| year.log.entries().to_vec()).collect()
    }

    /// The log of the outages before the first that is refused.
    fn entered(outages: &[Slot]) -> (Log, Option<Slot>) {
        let mut log = Log::fresh();
        for outage in outages {
            if log.enter(*outage).is_err() {
                return (log, Some(*outage));
            }
        }
        (log, None)
    }

    /// The edges of entering the outages.
    fn entering_edges(years: &[Year], number: u8) -> Edges {
        let outages = outages_of(years);
        let (log, _) = entered(&outages);
        let pairs = |gap: u32| {
            years.windows(2).any(|pair| {
                let (last, first) = (pair[0].log.entries().last(), pair[1].log.entries().first());
                last.zip(first).is_some_and(|(last, first)| {
                    last.end == first.start + gap && last.end > minutes_of(pair[1].number).0 as u32
                })
            })
        };
        let midnight = |outage: &Slot| (outage.end - 1) / 1_440 != outage.start / 1_440;
        let over = |years: &[Year], past: u8| {
            years.iter().any(|year| {
                let end = minutes_of((year.number + past).min(25)).1;
                year.log.entries().last().is_some_and(|last| last.end as i128 > end)
            })
        };
        // Whether an outage and one behind it lose so much in a minute.
        let lose = |place: usize, least: u16, most: u16| {
            let (one, later) = (outages[place], &outages[place + 1..]);
            let together = |other: &Slot| (least..=most).contains(&(one.mw + other.mw));
            later.iter().any(|other| one.shares_a_minute(other) && together(other))
        };
        let any_lose = |least, most| (0..outages.len()).any(|place| lose(place, least, most));
        let own_overlap = |year: &Year| {
            year.log.entries().windows(2).any(|pair| pair[0].shares_a_minute(&pair[1]))
        };
        let (filled, full, held) = (number == 0, number == 5, log.count as usize);
        let count = outages.len();
        vec![
            ("no outage", filled && count == 0),
            ("outages across midnights", filled && outages.iter().any(midnight)),
            ("up to the next return's", filled && pairs(0)),
            ("4 by a minute", number == 4 && pairs(1)),
            ("over a whole year", filled && over(years, 1)),
            ("4 two years on", number == 4 && over(years, 1)),
            ("400 outages", filled && count == 400),
            ("401 outages", full && count == 401),
            ("2,000 outages", full && count == 2_000),
            ("5 before the last", full && count > held + 1),
            ("5 before a clash", full && any_lose(1_001, 2_000)),
            ("1,000 MW of two", filled && any_lose(1_000, 1_000)),
            ("4 at 1,001 MW", number == 4 && any_lose(1_001, 1_001)),
            ("an overlap in a return", filled && years.iter().any(own_overlap)),
            ("a cause", filled && outages.iter().any(|outage| outage.cause != 1)),
            ("4 with 400 held", number == 4 && held == 400),
            ("4 with fewer held", number == 4 && held < 400),
            ("4 before there is no room", number == 4 && held < 400 && count > 400),
        ]
    }

    /// The edges of the assessment, and which refusals are hidden behind the
    /// first.
    fn assessing_edges(years: &[Year; 5], days: (u32, u32), number: u8) -> Edges {
        let (log, refused) = entered(&outages_of(years));
        let rows = rows_of_period(&Book::fresh(), years, &log);
        let assessed = rows.and_then(|rows| assess(&rows));
        let revenue = years.iter().any(|year| assessed_revenue(year) == Err(11));
        let bad_days = WorkbookPeriod::make(days.0, days.1).is_err();
        let low_caps = years.iter().all(|year| year.aic <= 5_000);
        let missed = rows.is_ok_and(|rows| {
            rows.iter().any(|row| row.floor == 0) && rows.iter().any(|row| row.floor > 0)
        });
        vec![
            ("11 by revenue", number == 11 && revenue),
            ("11 by a balance", number == 11 && !revenue),
            ("11 and low caps", number == 11 && low_caps),
            ("4 or 5 and 11 or 10", refused.is_some() && assessed.is_err()),
            ("4 or 5 and 12", refused.is_some() && bad_days),
            ("11 and 12", number == 11 && bad_days),
            ("10 and 12", number == 10 && bad_days),
            ("a W", number == 0 && years.iter().any(|year| year.w != 0)),
            ("no W", number == 0 && years.iter().any(|year| year.w == 0)),
            ("a floor on a miss", number == 0 && missed),
        ]
    }

    /// The first year of an accepted input.
    fn period_edges(first: u8, number: u8) -> Edges {
        vec![
            ("years 1 to 5", number == 0 && first == 1),
            ("years 6 to 10", number == 0 && first == 6),
            ("years 11 to 15", number == 0 && first == 11),
            ("years 16 to 20", number == 0 && first == 16),
            ("years 21 to 25", number == 0 && first == 21),
        ]
    }

    /// What a filling tries of rules 20.1 to 20.3.
    fn filling_edges(bytes: &[u8], number: u8) -> Edges {
        let parts = parts(bytes);
        let bad_days = |days: (u32, u32)| WorkbookPeriod::make(days.0, days.1).is_err();
        if number == 13 {
            let mut edges = length_edges(bytes, &parts);
            edges.push(("13 and 12", parts.days.is_some_and(bad_days)));
            if parts.returns.len() == 5 && parts.left.is_empty() {
                edges.extend(return_edges(&parts.returns));
            }
            return edges;
        }
        let years: Vec<Year> = parts.returns.iter().map(|one| read(one).unwrap()).collect();
        let years: [Year; 5] = years.try_into().unwrap();
        let days = parts.days.unwrap();
        let mut edges = day_edges(days, number);
        edges.extend(period_edges(years[0].number, number));
        edges.extend(entering_edges(&years, number));
        edges.extend(assessing_edges(&years, days, number));
        edges
    }

    #[test]
    fn the_edges_of_fillings_are_frequent() {
        let mut generator = Generator::new(1);
        let mut seen: BTreeMap<&str, u64> = BTreeMap::new();
        // About as many as there are among 100,000 calls.
        for _ in 0..1_700 {
            let bytes = generator.some_workbook_input();
            let edges = filling_edges(&bytes, fill(&bytes).err().unwrap_or(0));
            for (edge, _) in edges.iter().filter(|edge| edge.1) {
                *seen.entry(edge).or_default() += 1;
            }
        }
        let (reading, entering, assessing) = (16 + 1 + 11, 18, 10);
        assert_eq!(seen.len(), reading + 9 + 5 + entering + assessing, "{seen:?}");
        assert!(seen.values().all(|times| *times >= 10), "{seen:?}");
    }
}
