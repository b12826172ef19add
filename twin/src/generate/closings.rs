//! Blocks about closed years.

use super::logs::minute;
use super::random::Random;
use super::Generator;
use crate::model::calendar::{year_ends, year_minutes};
use crate::model::log::{Slot, LAST_REGIME_END};
use crate::model::sheet::write;
use crate::script::Call;

impl Random {
    /// A year end by a regime end: often the first, the start of year 25 or the
    /// regime end.
    pub fn year_end(&mut self, regime_end: u32) -> u32 {
        let ends: Vec<i128> = year_ends(regime_end).collect();
        let any = self.below(25) as usize;
        minute(ends[self.pick(&[0, 23, 24, any, any, any])])
    }

    /// A closed minute that is not 0 and hardly ever a year end.
    pub fn bad_closed(&mut self, regime_end: u32) -> u32 {
        let end = self.year_end(regime_end) as i128;
        let beside = self.pick(&[-1_440, -1, 1, 1_440]);
        match self.below(6) {
            0..=2 => minute(end + beside).max(1),
            3 => minute(regime_end as i128 + self.pick(&[-1, 1])).max(1),
            4 => self.pick(&[LAST_REGIME_END, LAST_REGIME_END + 1, 12_579_841, 1]),
            _ => self.pick(&[u32::MAX, u32::MAX - 1, 1 << 31, (1 << 31) + 482_400]),
        }
    }
}

impl Generator {
    /// Closings in a row, calls on both sides of the closed minute, and closed
    /// logs that are broken, written as sheets and put into years.
    pub fn closed_work(&mut self) {
        let regime_end = self.random.fair_regime_end();
        self.put_book(regime_end);
        self.closing_row(regime_end);
        for _ in 0..2 {
            let at = self.random.year_end(regime_end);
            self.put_log_around(at, regime_end);
            self.ask_and_close(at);
            for _ in 0..16 {
                self.call_by_closed();
            }
            match self.random.below(3) {
                0 => self.wrong_closed(),
                1 => self.closed_at_a_regime_end(regime_end),
                _ => self.closed_sheet(),
            }
        }
        self.closed_year();
    }

    /// A minute to close at: a year end, one beside it, the closed minute again,
    /// one that goes back, or far off.
    pub fn closing_minute(&mut self) -> u32 {
        let (closed, regime_end) = (self.desk.log.closed, self.desk.log.regime_end);
        let end = self.random.year_end(regime_end);
        let beside = self.random.pick(&[-1, 1]);
        let ahead = year_ends(regime_end).find(|end| *end > closed as i128);
        let back = year_ends(regime_end).filter(|end| *end < closed as i128).last();
        match self.random.below(15) {
            0 | 1 => end,
            2 | 3 => minute(end as i128 + beside),
            4..=6 => minute(ahead.unwrap_or(regime_end as i128)),
            7 => minute(back.unwrap_or(0)),
            8 | 9 => closed,
            10 => minute(closed as i128 + beside),
            11 => 0,
            12 => self.random.pick(&[regime_end, 12_579_840]),
            13 => self.random.pick(&[LAST_REGIME_END, LAST_REGIME_END, LAST_REGIME_END + 1]),
            _ => self.random.pick(&[u32::MAX, u32::MAX - 1, 1 << 31, 1]),
        }
    }

    /// Closes the log that stands at a year end.
    pub fn close_log(&mut self) {
        let minute = self.random.year_end(self.desk.log.regime_end);
        self.close_at(minute);
    }

    /// Closes by a call, or sets the closed minute.
    pub fn close_at(&mut self, minute: u32) {
        let set = self.random.one_in(4);
        self.call(if set { Call::SetClosed { minute } } else { Call::Close { minute } });
    }

    /// Closings one after the other, from an open log on.
    fn closing_row(&mut self, regime_end: u32) {
        let count = self.random.below(3) as usize;
        let outages = self.random.outages(count, 0, regime_end as i128);
        self.put_open_log(&outages, regime_end);
        self.call(Call::Close { minute: 0 });
        for _ in 0..10 {
            let minute = self.closing_minute();
            self.call(Call::Close { minute });
        }
        self.call(Call::Close { minute: self.desk.log.closed });
        self.call(Call::Close { minute: 0 });
    }

    /// An open log with entries before a year end, up to it, across it, from it
    /// on and behind it, one in two with 399 or 400 entries.
    fn put_log_around(&mut self, at: u32, regime_end: u32) {
        let (at, last) = (at as i128, regime_end as i128);
        let beside: &[(i128, i128)] = match self.random.below(6) {
            0 => &[(-5, 5)],
            1 => &[(-1, 1)],
            2 => &[(-5, 0), (0, 5)],
            3 => &[(-9, -1), (-1, 1), (1, 5)],
            4 => &[(0, 1)],
            _ => &[],
        };
        let mut middle: Vec<Slot> = Vec::new();
        for (from, to) in beside {
            let (start, end) = (minute(at + from), minute((at + to).min(last)));
            if start < end {
                middle.push(Slot { start, end, mw: self.random.fair_mw(), cause: 1 });
            }
        }
        let room = last - at >= 4_000;
        let count = if room { self.random.below(4) as usize } else { 0 };
        let behind = self.random.outages(count, at + 10, at + 4_000);
        let others = middle.len() + behind.len();
        let count = if self.random.one_in(2) {
            self.random.pick(&[399, 400, 400]) - others
        } else {
            self.random.below(4) as usize
        };
        let before = self.random.outages(count, at - 4_000, at - 10);
        self.put_open_log(&[before, middle, behind].concat(), regime_end);
    }

    /// The same questions before and after the log is closed (rule 5.4).
    fn ask_and_close(&mut self, at: u32) {
        let ended = year_ends(self.desk.log.regime_end).take_while(|end| *end <= at as i128);
        let number = ended.count() as u8;
        let k = self.any_k();
        let fields = self.random.fair_fields(number, 0);
        self.call(Call::SetYear { k, fields });
        let (first, _) = year_minutes(number, LAST_REGIME_END).unwrap();
        let (a, b) = self.stretch();
        let questions = [
            Call::Lost { a: minute(first), b: at },
            Call::Lost { a: at - 1, b: at.saturating_add(self.random.below(2) as u32) },
            Call::Lost { a, b },
            Call::Availability { year: number },
            Call::Availability { year: number + 1 },
            Call::Target { year: number },
            Call::Levels { k },
        ];
        questions.iter().for_each(|question| self.call(question.clone()));
        self.close_at(at);
        questions.iter().for_each(|question| self.call(question.clone()));
    }

    /// One call beside the closed minute.
    fn call_by_closed(&mut self) {
        let call = match self.random.below(20) {
            0..=9 => Call::enter(self.outage_by_closed()),
            10..=16 => {
                let (start, cause) = self.key_by_closed();
                Call::cancel(start, cause)
            }
            17 => Call::Close { minute: self.closing_minute() },
            _ => return self.log_call(),
        };
        self.call(call);
    }

    /// The last entry held that starts in closed time.
    fn old_entry(&self) -> Option<Slot> {
        let closed = self.desk.log.closed;
        self.held().iter().rev().find(|held| held.start < closed).copied()
    }

    fn outage_by_closed(&mut self) -> Slot {
        let (at, last) = (self.desk.log.closed as i128, self.desk.log.regime_end as i128);
        let old = self.old_entry().unwrap_or_default();
        let (s, e) = (old.start as i128, old.end as i128);
        let length = self.random.pick(&[1, 2, 60, 1_440, 5_000]);
        let stretches = [
            // From the closed minute on, from a minute before it and after it.
            (at, at + 1),
            (at, at + 1),
            (at, at + length),
            (at, last),
            (at - 1, at),
            (at - 1, at + 1),
            (at - 1, last),
            (at + 1, at + 1 + length),
            (at + length, at + 2 * length),
            // In closed time, and out of it.
            (0, 1),
            (at - length, at),
            (at - length, at + length),
            // On an old entry and behind it.
            (s, e),
            (e - 1, e + 1),
            (e, e + 1),
            // Bad spans.
            (at - 1, at - 1),
            (at - 1, at - 2),
            (at - 1, last + 1),
            (at, at),
            (at, last + 1),
        ];
        let (start, end) = self.random.pick(&stretches);
        let (mw, cause) = (self.random.mw(), self.random.cause());
        Slot { start: minute(start), end: minute(end), mw, cause }
    }

    fn key_by_closed(&mut self) -> (u32, u8) {
        let closed = self.desk.log.closed;
        let old = self.old_entry().unwrap_or_default();
        let open = self.held().iter().find(|held| held.start >= closed).copied();
        let open = open.unwrap_or_default();
        let any = self.some_entry().map_or((0, 1), |(entry, _)| entry.key());
        let (before, after) = (closed.saturating_sub(1), closed.saturating_add(1));
        let starts = [old.end, closed, before, after, 0].map(|start| (start, 1));
        let held = [old.key(), old.key(), open.key(), any];
        let (start, cause) = self.random.pick(&[&starts[..], &held].concat());
        if self.random.one_in(8) {
            (start, self.random.cause())
        } else {
            (start, cause)
        }
    }

    /// Each call that takes the log that stands.
    fn every_log_call(&mut self) {
        let (outage, (start, cause)) = (self.outage_by_closed(), self.key_by_closed());
        let minute = self.closing_minute();
        let (a, b) = self.stretch();
        let (year, k) = (self.random.fair_number(), self.any_k());
        for call in [
            Call::enter(outage),
            Call::cancel(start, cause),
            Call::Close { minute },
            Call::Close { minute: self.desk.log.closed },
            Call::Lost { a, b },
            Call::Availability { year },
            Call::Target { year },
            Call::Levels { k },
            Call::Period,
            Call::YearLog { k },
        ] {
            self.call(call);
        }
        let room = self.some_room(k);
        self.call(Call::Write { k, room });
        self.write_sheet();
    }

    /// A closed minute that is no year end, and then the right one again.
    fn wrong_closed(&mut self) {
        let log = &self.desk.log;
        let (right, regime_end) = (log.closed, log.regime_end);
        let wrong = self.random.bad_closed(regime_end);
        for minute in [wrong, right] {
            self.call(Call::SetClosed { minute });
            self.every_log_call();
        }
    }

    /// A log that is closed at its own regime end, or at that of another.
    fn closed_at_a_regime_end(&mut self, regime_end: u32) {
        let count = self.random.below(4) as usize;
        let outages = self.random.outages(count, 0, regime_end as i128);
        self.put_open_log(&outages, regime_end);
        let other = self.random.fair_regime_end();
        let minute = self.random.pick(&[regime_end, regime_end, LAST_REGIME_END, other]);
        self.close_at(minute);
        self.every_log_call();
        if self.random.one_in(2) {
            let count = self.desk.log.count;
            self.call(Call::SetCount { count, regime_end: other });
            self.every_log_call();
        }
    }

    /// A closed log that is written as a sheet, and comes back open (rule 15.6).
    fn closed_sheet(&mut self) {
        self.write_sheet();
        let bytes = write(&self.desk.log, usize::MAX).unwrap_or_default();
        self.read_sheet(self.desk.log.regime_end, bytes);
        if self.random.one_in(3) {
            self.call(Call::ShowLog);
        }
        self.every_log_call();
    }

    /// A year whose log is closed at a year end, wrongly or not at all, written
    /// and read (rule 10.3).
    fn closed_year(&mut self) {
        let (k, number) = (self.any_k(), self.random.fair_number());
        let (first, end) = year_minutes(number, LAST_REGIME_END).unwrap();
        let count = self.random.below(4) as usize;
        let outages = self.random.outages(count, first, end);
        self.put_open_log(&outages, LAST_REGIME_END);
        let mut fields = self.random.fair_fields(number, 0);
        if self.random.one_in(6) {
            self.random.spoil_fields(&mut fields);
        }
        self.put_year(k, fields, &[]);
        for _ in 0..3 {
            self.close_and_write(k);
        }
        let bytes = self.return_of(number, 0, &outages);
        self.call(Call::Read { k, bytes });
        let room = self.some_room(k);
        self.call(Call::Write { k, room });
    }

    /// Sets the closed minute of a year's log to the log that stands, and writes
    /// both.
    pub fn close_and_write(&mut self, k: u8) {
        let regime_end = self.desk.log.regime_end;
        let minute = match self.random.below(4) {
            0 => 0,
            1 => self.random.bad_closed(regime_end),
            _ => self.random.year_end(regime_end),
        };
        self.call(Call::SetClosed { minute });
        self.call(Call::YearLog { k });
        let room = self.some_room(k);
        self.call(Call::Write { k, room });
        self.write_sheet();
    }
}

#[cfg(test)]
mod tests {
    use super::*;
    use crate::desk::Desk;
    use crate::generate::tests::seen;
    use crate::model::calendar::is_year_end;
    use crate::model::log::{Log, SLOTS};
    use crate::model::yearly_return;

    /// The edges of an entering on a log that keeps the rules.
    fn entering_edges(log: &Log, outage: &Slot, number: &str) -> Vec<&'static str> {
        let old = outage.start < log.closed;
        let at_closed = log.closed > 0 && outage.start == log.closed;
        let clashes = log.check_outage(outage).is_ok() && !log.has_room_beside(outage);
        let full = log.count as usize == SLOTS;
        let edges = [
            ("2 in closed time", old && number == "2"),
            ("3 in closed time", old && number == "3"),
            ("16 and ends in closed time", number == "16" && outage.end < log.closed),
            ("16 and ends in open time", number == "16" && outage.end > log.closed),
            ("16 in the minute before", number == "16" && outage.start + 1 == log.closed),
            ("16 and a clash", number == "16" && clashes && !full),
            ("16 on a full log", number == "16" && full && !clashes),
            ("16 at the regime end", number == "16" && log.closed == log.regime_end),
            ("accepted at the closed minute", number == "0" && at_closed),
            ("4 in a closed log", number == "4" && log.closed > 0),
            ("5 in a closed log", number == "5" && log.closed > 0),
        ];
        edges.into_iter().filter(|edge| edge.1).map(|edge| edge.0).collect()
    }

    fn cancelling_edges(log: &Log, key: (u32, u8), number: &str) -> Vec<&'static str> {
        let entry = log.entries().iter().find(|held| held.key() == key);
        let at_closed = log.closed > 0 && key.0 == log.closed;
        let edges = [
            ("cancel 16 without an entry", number == "16" && entry.is_none()),
            ("cancel 16 of an old entry", number == "16" && entry.is_some()),
            (
                "cancel 16 of one into open time",
                number == "16" && entry.is_some_and(|held| held.end > log.closed),
            ),
            ("cancel accepted at the closed minute", number == "0" && at_closed),
            ("cancel 6 at the closed minute", number == "6" && at_closed),
        ];
        edges.into_iter().filter(|edge| edge.1).map(|edge| edge.0).collect()
    }

    fn closing_edges(log: &Log, minute: u32, number: &str) -> Vec<&'static str> {
        let beside = |by: i128| {
            u32::try_from(minute as i128 + by).is_ok_and(|at| is_year_end(at, log.regime_end))
        };
        let short = log.regime_end != LAST_REGIME_END;
        let edges = [
            ("close a minute below a year end", number == "9" && beside(1)),
            ("close a minute above a year end", number == "9" && beside(-1)),
            ("close back", number == "9" && minute > 0 && beside(0) && minute < log.closed),
            ("close again", number == "0" && minute > 0 && minute == log.closed),
            ("close an open log at 0", number == "0" && minute == 0),
            ("close a closed log at 0", number == "9" && minute == 0),
            ("close at year 2", number == "0" && minute == 482_400),
            ("close at year 25", number == "0" && minute == 12_579_840),
            ("close at another regime end", number == "0" && short && minute == log.regime_end),
            ("close past a regime end", number == "9" && short && minute == LAST_REGIME_END),
            ("close near 2^32", number == "9" && minute > u32::MAX - 2),
        ];
        edges.into_iter().filter(|edge| edge.1).map(|edge| edge.0).collect()
    }

    fn writing_edges(desk: &Desk, call: &Call, number: &str) -> Vec<&'static str> {
        let edges = match call {
            Call::Write { k, .. } => {
                let mut open = desk.years[*k as usize].clone();
                open.log.closed = 0;
                let good = yearly_return::write(&open, yearly_return::MOST_BYTES).is_ok();
                [("write 9", number == "9" && good), ("write 1", number == "1" && good)]
            }
            _ => {
                let (log, open) = (&desk.log, Log { closed: 0, ..desk.log.clone() });
                let wrong = !log.keeps_rules() && open.keeps_rules();
                let filled = log.count > 0 && log.closed > 0;
                [("sheet", number == "0" && filled), ("sheet 1", number == "1" && wrong)]
            }
        };
        edges.into_iter().filter(|edge| edge.1).map(|edge| edge.0).collect()
    }

    /// What a call tries of the rules on closed years, on what stands before it.
    fn edges(desk: &Desk, call: &Call, answer: &str) -> Vec<&'static str> {
        let number = answer.split(' ').next().unwrap();
        match call {
            Call::Write { .. } | Call::WriteSheet { .. } => writing_edges(desk, call, number),
            _ if !desk.log.keeps_rules() => Vec::new(),
            Call::Enter { outage, .. } => entering_edges(&desk.log, outage, number),
            Call::Cancel { start, cause, .. } => {
                cancelling_edges(&desk.log, (*start, *cause), number)
            }
            Call::Close { minute } => closing_edges(&desk.log, *minute, number),
            _ => Vec::new(),
        }
    }

    #[test]
    fn the_edges_of_closed_years_are_frequent() {
        let seen = seen(edges);
        assert_eq!(seen.len(), 11 + 5 + 11 + 4, "{seen:?}");
        assert!(seen.values().all(|times| *times >= 20), "{seen:?}");
    }
}
