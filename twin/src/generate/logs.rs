//! Blocks about the outage log.

use super::Generator;
use crate::model::calendar::year_minutes;
use crate::model::log::{Slot, LAST_REGIME_END, SLOTS};
use crate::script::Call;

/// A number as a minute, the nearest where it is none.
pub fn minute(number: i128) -> u32 {
    number.clamp(0, u32::MAX as i128) as u32
}

impl Generator {
    /// Calls on a log that is small or middling.
    pub fn log_work(&mut self) {
        let regime_end = self.random.fair_regime_end();
        self.put_book(regime_end);
        let count = self.random.pick(&[0, 1, 2, 5, 12, 30]);
        let outages = self.spread_outages(count, regime_end);
        self.put_log(&outages, regime_end);
        for _ in 0..60 {
            self.log_call();
        }
        for _ in 0..3 {
            self.empty_call();
        }
        for _ in 0..12 {
            self.log_call();
        }
    }

    /// Calls on a log that is full or has one slot left.
    pub fn full_log_work(&mut self) {
        let count = self.random.pick(&[399, 400, 400]);
        if self.random.one_in(4) {
            let regime_end = self.random.fair_regime_end();
            self.put_book(regime_end);
            let outages = self.spread_outages(count, regime_end);
            self.put_log(&outages, regime_end);
        } else {
            self.put_book(LAST_REGIME_END);
            let number = self.random.fair_number();
            let (first, end) = year_minutes(number, LAST_REGIME_END).unwrap();
            let first = if self.random.one_in(3) { end - 2_000 } else { first };
            let outages = self.random.outages(count, first, end);
            self.put_log_by_return(number, &outages);
        }
        for _ in 0..60 {
            self.log_call();
        }
    }

    /// Calls on logs that break a rule, and on the same logs before.
    pub fn broken_log_work(&mut self) {
        let regime_end = self.random.fair_regime_end();
        self.put_book(regime_end);
        for round in 0..5 {
            let count = if round == 0 && self.random.one_in(2) {
                self.random.pick(&[399, 400, 150])
            } else {
                self.random.pick(&[0, 1, 2, 3, 3, 6, 9])
            };
            let outages = self.spread_outages(count, regime_end);
            self.put_log(&outages, regime_end);
            self.log_call();
            self.break_log(count);
            for _ in 0..6 {
                self.log_call();
            }
            let k = self.any_k();
            self.call(Call::Levels { k });
            self.call(Call::Period);
            self.call(Call::YearLog { k });
            let room = self.some_room(k);
            self.call(Call::Write { k, room });
        }
    }

    /// Lost energy at, just below and just above what the target allows.
    pub fn target_work(&mut self) {
        let regime_end = self.random.fair_regime_end();
        let number = match self.random.below(4) {
            0 => 1,
            1 => 25,
            _ => self.random.between(2, 24) as u8,
        };
        let (first, end) = year_minutes(number, regime_end).unwrap();
        let most = 1_000 * (end - first);
        let mut book = self.random.fair_book(regime_end);
        let lost = if (2..=24).contains(&number) {
            most - 7_012_800 * 60
        } else {
            let available = self.random.between(0, most) / 60 * 60;
            let target = (available / 60) as u32;
            (book.target_1, book.target_25) = (target, target);
            most - available
        };
        self.call(Call::SetBook { book });
        for round in 0..4 {
            let side = if round == 0 { 0 } else { self.random.between(-2, 2) };
            let outages = self.exact_loss((lost + side).clamp(0, most), first, end, regime_end);
            self.put_log(&outages, regime_end);
            self.call(Call::Availability { year: number });
            self.call(Call::Target { year: number });
            for other in [number.saturating_sub(1), number + 1] {
                self.call(Call::Availability { year: other });
                self.call(Call::Target { year: other });
            }
            for mark in [false, true] {
                let k = self.any_k();
                let mut fields = self.random.fair_fields(number, 0);
                fields.mark = mark;
                fields.pppi = fields.pppi.min(12_000);
                self.call(Call::SetYear { k, fields });
                self.call(Call::Levels { k });
            }
        }
    }

    /// Outages that lose exactly so much from first to end, some of them
    /// running on over the edges.
    fn exact_loss(&mut self, lost: i128, first: i128, end: i128, regime_end: u32) -> Vec<Slot> {
        let (whole, rest) = (lost / 1_000, lost % 1_000);
        let before =
            if first > 0 && self.random.one_in(2) { self.random.between(1, 3_000) } else { 0 };
        let mut outages = Vec::new();
        if whole > 0 {
            let start = minute((first - before).max(0));
            outages.push(Slot { start, end: minute(first + whole), mw: 1_000, cause: 1 });
        }
        if rest > 0 {
            let after = if self.random.one_in(2) { self.random.between(0, 3_000) } else { 0 };
            let last = minute((end + after).min(regime_end as i128));
            outages.push(Slot { start: minute(end - 1), end: last, mw: rest as u16, cause: 1 });
        }
        outages
    }

    pub fn put_book(&mut self, regime_end: u32) {
        let book = self.random.fair_book(regime_end);
        self.call(Call::SetBook { book });
    }

    fn spread_outages(&mut self, count: usize, regime_end: u32) -> Vec<Slot> {
        let low = self.random.between(0, 12_000_000);
        let high = if self.random.one_in(2) { low + 30_000 } else { regime_end as i128 };
        let mut outages = self.random.outages(count, low, high);
        if self.random.one_in(4) {
            if let Some(last) = outages.last_mut() {
                last.end = regime_end;
            }
        }
        outages
    }

    /// Builds a log, one in eight of them closed.
    pub fn put_log(&mut self, outages: &[Slot], regime_end: u32) {
        self.put_open_log(outages, regime_end);
        if self.random.one_in(8) {
            self.close_log();
        }
    }

    /// Builds an open log: an outage at a time in any order, or slot by slot.
    pub fn put_open_log(&mut self, outages: &[Slot], regime_end: u32) {
        self.call(Call::Empty { regime_end });
        if outages.len() <= 30 && self.random.one_in(2) {
            let mut order = outages.to_vec();
            self.random.shuffle(&mut order);
            for outage in order {
                self.call(Call::enter(outage));
            }
        } else {
            for (slot, outage) in outages.iter().enumerate() {
                self.call(Call::set_slot(slot as u16, *outage));
            }
            self.call(Call::SetCount { count: outages.len() as u64, regime_end });
        }
    }

    /// Builds a log by reading a return of one year.
    fn put_log_by_return(&mut self, number: u8, outages: &[Slot]) {
        let bytes = self.return_of(number, 0, outages);
        let k = self.any_k();
        self.call(Call::Read { k, bytes });
        self.call(Call::TakeLog { k });
    }

    /// One call on the log that stands.
    pub fn log_call(&mut self) {
        if self.random.one_in(50) {
            let minute = self.closing_minute();
            return self.call(Call::Close { minute });
        }
        if self.random.one_in(60) {
            let plan = self.random.some_plan(self.desk.log.regime_end);
            return self.call(Call::enter_plan(plan));
        }
        let number = self.random.year_number();
        let call = match self.random.below(22) {
            0..=7 => Call::enter(self.outage_to_enter()),
            8..=11 => {
                let (start, cause) = self.key_to_cancel();
                Call::cancel(start, cause)
            }
            12..=15 => {
                let (a, b) = self.stretch();
                Call::Lost { a, b }
            }
            16 => Call::Minutes { year: number, regime_end: self.random.minute() },
            17..=19 => Call::Availability { year: number },
            _ => Call::Target { year: number },
        };
        self.call(call);
    }

    fn empty_call(&mut self) {
        let regime_end = if self.random.one_in(2) {
            self.random.bad_regime_end()
        } else {
            self.random.fair_regime_end()
        };
        self.call(Call::Empty { regime_end });
    }

    /// The slots up to the count, as far as there are any.
    pub fn held(&self) -> &[Slot] {
        &self.desk.log.slots[..self.desk.log.count.min(SLOTS as u64) as usize]
    }

    /// A held entry and the start of the one after it.
    pub fn some_entry(&mut self) -> Option<(Slot, u32)> {
        let count = self.held().len();
        if count == 0 {
            return None;
        }
        let place = self.random.below(count as u64) as usize;
        let next = self.held().get(place + 1).map_or(self.desk.log.regime_end, |slot| slot.start);
        Some((self.held()[place], next))
    }

    fn outage_to_enter(&mut self) -> Slot {
        let length = match self.random.below(4) {
            0 | 1 => 1,
            2 => self.random.pick(&[2, 60, 1_440]),
            _ => self.random.between(1, 5_000),
        };
        let entry = self.some_entry();
        let (start, end) = match entry {
            Some((entry, next)) if !self.random.one_in(4) => {
                let (start, end) = (entry.start as i128, entry.end as i128);
                match self.random.below(10) {
                    0 => (start - length, start),
                    1 => (end, end + length),
                    2 => (start - length, start + 1),
                    3 => (end - 1, end + length),
                    4 => (start, end),
                    5 => (start, start + 1),
                    6 => (start - 1, end + 1),
                    7 | 8 => (end, next as i128),
                    _ => (end, start),
                }
            }
            _ => self.free_stretch(length),
        };
        let mw = if self.random.one_in(3) { self.random.mw() } else { self.random.fair_mw() };
        Slot { start: minute(start), end: minute(end), mw, cause: self.random.cause() }
    }

    /// A stretch without regard to the entries held.
    fn free_stretch(&mut self, length: i128) -> (i128, i128) {
        let regime_end = self.desk.log.regime_end as i128;
        let at = self.random.minute() as i128;
        match self.random.below(9) {
            0 => (at, at),
            1 => (regime_end - length, regime_end),
            2 => (regime_end - length, regime_end + 1),
            3 => (at, self.random.minute() as i128),
            4 => {
                let midnight = self.random.between(1, 8_000) * 1_440;
                (midnight - length, midnight + length)
            }
            5 => {
                let number = self.random.fair_number();
                let (first, _) = year_minutes(number, LAST_REGIME_END).unwrap();
                (first - length, first + length)
            }
            _ => (at, at + length),
        }
    }

    /// The start and the cause of an entry held, or one of them of another.
    fn key_to_cancel(&mut self) -> (u32, u8) {
        match (self.random.below(8), self.some_entry()) {
            (0..=2, Some((entry, _))) => entry.key(),
            (3, Some((entry, _))) => (entry.start, self.random.cause()),
            (4, Some((entry, _))) => (entry.end, entry.cause),
            (5, Some((entry, _))) => (minute(entry.start as i128 + 1), entry.cause),
            (6, _) => (self.random.minute(), self.random.cause()),
            _ => (0, 1),
        }
    }

    pub fn stretch(&mut self) -> (u32, u32) {
        let regime_end = self.desk.log.regime_end;
        let at = self.random.minute();
        let (a, b) = match (self.random.below(10), self.some_entry()) {
            (0 | 1, Some((entry, next))) => {
                let (low, high) = (entry.start as i128, next.max(entry.end) as i128);
                let side = self.random.between(-2, 2);
                (low + side, high + self.random.between(-2, 2))
            }
            (2, Some((entry, _))) => (entry.end as i128 - 1, entry.end as i128),
            (3, _) => (at as i128, at as i128),
            (4, _) => (regime_end as i128, regime_end as i128 + self.random.between(0, 1)),
            (5, _) => (regime_end as i128 + 1, regime_end as i128 + 1),
            (6, _) => (0, regime_end as i128),
            (7, _) => {
                let number = self.random.fair_number();
                year_minutes(number, regime_end).unwrap()
            }
            (8, _) => {
                let midnight = self.random.between(0, 8_000) * 1_440;
                (midnight, midnight + self.random.pick(&[1, 1_440, 44_640]))
            }
            _ => (at as i128, self.random.minute() as i128),
        };
        (minute(a), minute(b))
    }

    /// Breaks the log that stands, which has so many entries, in one way.
    pub fn break_log(&mut self, count: usize) {
        let log = self.desk.log.clone();
        if self.random.one_in(8) {
            let minute = self.random.bad_closed(log.regime_end);
            return self.call(Call::SetClosed { minute });
        }
        let place = self.random.below(count.max(1) as u64) as usize;
        let mut slot = log.slots[place];
        match self.random.below(if count == 0 { 6 } else { 18 }) {
            0 => {
                let count = if self.random.one_in(2) { 401 } else { self.random.edge_u64() };
                return self.set_count(count, log.regime_end);
            }
            1 => return self.set_count(count as u64 + 1, log.regime_end),
            2 => return self.set_count((1 << 32) + count as u64, log.regime_end),
            3 => {
                let regime_end = self.random.bad_regime_end();
                return self.set_count(count as u64, regime_end);
            }
            4 | 5 if count < SLOTS => {
                let free = self.random.pick(&[count, SLOTS - 1, (count + SLOTS) / 2]);
                let single = [
                    Slot { start: 1, ..Slot::default() },
                    Slot { end: 1, ..Slot::default() },
                    Slot { mw: 1, ..Slot::default() },
                    Slot { cause: 1, ..Slot::default() },
                    Slot { start: 5, end: 6, mw: 7, cause: 1 },
                ];
                let outage = self.random.pick(&single);
                return self.call(Call::set_slot(free as u16, outage));
            }
            6 => return self.set_count(count as u64 - 1, log.regime_end),
            7 => slot.start = slot.end,
            8 => (slot.start, slot.end) = (slot.end, slot.start),
            9 => slot.mw = self.random.pick(&[0, 1_001, 65_535]),
            10 => slot.end = self.random.pick(&[log.regime_end + 1, u32::MAX]),
            11..=13 if count > 1 => {
                // Broken where the two lose more than 1,000 MW together.
                let later = place.max(1);
                let mut shared = log.slots[later];
                shared.start = log.slots[later - 1].end - 1;
                shared.mw = shared.mw.max(1_001 - log.slots[later - 1].mw.min(1_000));
                return self.call(Call::set_slot(later as u16, shared));
            }
            14..=16 if count > 1 => {
                let later = place.max(1);
                let (one, other) = (log.slots[later - 1], log.slots[later]);
                self.call(Call::set_slot(later as u16 - 1, other));
                return self.call(Call::set_slot(later as u16, one));
            }
            _ => slot = Slot::default(),
        }
        self.call(Call::set_slot(place as u16, slot));
        if count == SLOTS && self.random.one_in(4) {
            self.set_count(SLOTS as u64 + 1, log.regime_end);
        }
    }

    fn set_count(&mut self, count: u64, regime_end: u32) {
        self.call(Call::SetCount { count, regime_end });
    }
}
