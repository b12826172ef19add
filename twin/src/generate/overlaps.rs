//! Blocks about entries that overlap, and about causes.

use super::logs::minute;
use super::random::Random;
use super::Generator;
use crate::model::calendar::{year_minutes, MINUTES_OF_A_DAY};
use crate::model::log::{Slot, LAST_REGIME_END, SLOTS};
use crate::model::plan::Plan;
use crate::model::sheet::{joined, Piece};
use crate::model::yearly_return::{field, span_value};
use crate::script::Call;

/// Entries of which some run at once in a minute, and an outage over that minute.
struct Crowd {
    held: Vec<Slot>,
    /// The minute that loses most by those that the outage meets, and what it
    /// loses.
    fullest: u32,
    lost: u16,
    outage: Slot,
    /// Causes that none of them has.
    causes: Vec<u8>,
}

impl Crowd {
    /// The outage with so many MW more than there is room for.
    fn outage_past_room(&self, more: i128) -> Slot {
        let room = 1_000 - self.lost as i128;
        Slot { mw: (room + more).clamp(0, 1_001) as u16, ..self.outage }
    }
}

impl Random {
    /// So many numbers, 1 or more each, that add up to a sum.
    fn parts(&mut self, sum: u16, count: usize) -> Vec<u16> {
        let mut left = sum;
        let mut parts = Vec::new();
        for after in (0..count as u16).rev() {
            let most = left - after;
            let any = 1 + self.below(most as u64) as u16;
            let part = if after == 0 { left } else { any.min(1 + most / 2) };
            parts.push(part);
            left -= part;
        }
        self.shuffle(&mut parts);
        parts
    }

    /// All causes in any order, the usual one, 2 and 255 among the last.
    fn causes(&mut self) -> Vec<u8> {
        let mut causes: Vec<u8> = (3..=254).collect();
        self.shuffle(&mut causes);
        let mut last = [causes.pop().unwrap(), causes.pop().unwrap(), 1, 2, 255];
        self.shuffle(&mut last);
        causes.extend(last);
        causes
    }

    /// A start that leaves 3,000 minutes before it and behind a length, between
    /// two minutes: often at a midnight or a year end.
    fn crowded_start(&mut self, low: i128, high: i128, length: i128) -> i128 {
        let (low, high) = (low + 3_000, high - 3_000 - length);
        let any = self.between(low, high);
        let start = match self.below(5) {
            0 => any / MINUTES_OF_A_DAY * MINUTES_OF_A_DAY - self.pick(&[0, 0, 1, 30]),
            1 => self.year_end(LAST_REGIME_END) as i128 - self.pick(&[0, 1]),
            2 => self.pick(&[low, high]),
            _ => any,
        };
        start.clamp(low, high)
    }

    /// A crowd between two minutes that are 12,000 apart or more.
    fn crowd(&mut self, low: i128, high: i128) -> Crowd {
        let length = self.pick(&[1, 2, 3, 10, 60, 1_440, 2_000]);
        let start = self.crowded_start(low, high, length);
        let (end, n) = (start + length, self.pick(&[1, 5, 60, 3_000]));
        let any = self.between(start, end - 1);
        let fullest = self.pick(&[start, any, any, end - 1, end - 1]);
        let count = self.pick(&[1, 1, 1, 2, 2, 2, 3, 5, 12]);
        let lost = match self.below(4) {
            0 => 999,
            1 => self.pick(&[count as u16, 600, 500]).max(count as u16),
            _ => self.between(count as i128, 999) as u16,
        };
        let mut causes = self.causes();
        let mut held = Vec::new();
        let alone = lost > 1 && self.one_in(3);
        for (place, mw) in self.parts(lost, count).into_iter().enumerate() {
            let (from, to) = (self.between(start, fullest), self.between(fullest + 1, end));
            // One of them starts in the fullest minute, or runs since before.
            let starts = [start - n, start, fullest, from];
            let first = self.pick(&[fullest, fullest, start - n]);
            let from = if place == 0 { first } else { self.pick(&starts) };
            let to = self.pick(&[fullest + 1, end, end + n, to]);
            let (from, to) = if alone { (fullest, fullest + 1) } else { (from, to) };
            held.push(slot(from, to, mw, causes.pop().unwrap()));
        }
        // The other minutes lose a MW less than the fullest one.
        for (from, to) in [(start, fullest), (fullest + 1, end)] {
            if alone && from < to {
                held.push(slot(from, to, lost - 1, causes.pop().unwrap()));
            }
        }
        // One that ends where the outage starts, and one that starts where it
        // ends: neither counts.
        let room = 1_000 - lost;
        if self.one_in(2) {
            held.push(slot(start - n, start, room, causes.pop().unwrap()));
        }
        if self.one_in(2) {
            held.push(slot(end, end + n, room, causes.pop().unwrap()));
        }
        held.sort_by_key(Slot::key);
        let outage = slot(start, end, room, causes.pop().unwrap());
        Crowd { held, fullest: fullest as u32, lost, outage, causes }
    }

    /// Three in order: a long one, one that ends in it, and one behind that, for
    /// which there is room beside the first, or a MW too little.
    fn three_of_which_one_has_ended(&mut self, first: i128) -> Vec<Slot> {
        let (start, mw) = (first + self.between(0, 5_000), self.between(1, 999) as u16);
        let late = 1_000 - mw + self.pick(&[0, 1, 1]);
        vec![
            slot(start, start + 100, mw, 1),
            slot(start + 1, start + 2, 1_000 - mw, self.fair_cause()),
            slot(start + 2, start + self.pick(&[3, 99, 200]), late, self.fair_cause()),
        ]
    }

    /// A value of tag 07 that is wrong by its cause or its length.
    fn wrong_value(&mut self, outage: &Slot) -> Vec<u8> {
        let mut value = span_value(outage);
        match self.below(4) {
            0 => value.push(1),
            1 => value.push(0),
            2 => value.extend([2, 2]),
            _ => {
                value.pop();
            }
        }
        value
    }
}

fn slot(start: i128, end: i128, mw: u16, cause: u8) -> Slot {
    Slot { start: minute(start), end: minute(end), mw, cause }
}

impl Generator {
    /// Logs, returns, plans and sheets with entries that overlap.
    pub fn overlap_work(&mut self) {
        let regime_end = self.random.fair_regime_end();
        self.put_book(regime_end);
        for _ in 0..7 {
            self.crowd_on_both_sides(regime_end);
        }
        for _ in 0..3 {
            self.broken_crowd(regime_end);
        }
        for _ in 0..6 {
            self.crowd_in_a_return();
        }
        for _ in 0..4 {
            self.crowd_and_a_plan(regime_end);
        }
        self.messages_with_causes();
        self.overlaps_on_sheets(regime_end);
        if self.random.one_in(2) {
            self.many_running();
        }
    }

    fn enter(&mut self, outage: Slot) {
        self.call_or_spell(Call::enter(outage));
    }

    fn cancel(&mut self, start: u32, cause: u8) {
        self.call_or_spell(Call::cancel(start, cause));
    }

    /// An outage a MW too much for a crowd, and one that fits; then its key
    /// again, one more beside it, and cancellings of it. One crowd in three is
    /// closed before all that.
    fn crowd_on_both_sides(&mut self, regime_end: u32) {
        let crowd = self.random.crowd(0, regime_end as i128);
        let outage = crowd.outage;
        self.put_open_log(&crowd.held, regime_end);
        if self.random.one_in(3) {
            self.close_log();
        }
        self.enter(crowd.outage_past_room(1));
        if self.random.one_in(4) {
            let more = self.random.between(1, 900);
            self.enter(crowd.outage_past_room(more));
        }
        if self.random.one_in(3) {
            let (mw, end) =
                self.random.pick(&[(1, outage.start), (1, outage.end), (0, outage.end)]);
            self.enter(Slot { cause: 0, mw, end, ..outage });
        }
        self.enter(crowd.outage_past_room(0));
        self.held_again(outage);
        let cause = crowd.causes[0];
        self.enter(Slot { mw: 1, cause, ..outage });
        self.enter(Slot { mw: 1, cause, start: crowd.fullest, end: crowd.fullest + 1 });
        let (a, b) = (crowd.fullest, crowd.fullest + 1);
        self.call(Call::Lost { a, b });
        self.call(Call::Lost { a: outage.start - 1, b: outage.end + 1 });
        if self.random.one_in(3) {
            self.write_sheet();
        }
        if self.random.one_in(6) {
            self.call(Call::ShowLog);
        }
        for wrong in [0, cause] {
            self.cancel(outage.start, wrong);
        }
        self.cancel(outage.start, outage.cause);
        let some = self.random.pick(&crowd.held);
        self.cancel(some.start, some.cause);
        self.enter(crowd.outage_past_room(1));
    }

    /// The key of an outage again, with room beside it and without, and with
    /// numbers that are refused before.
    fn held_again(&mut self, outage: Slot) {
        let mw = self.random.pick(&[1, 1_000]);
        let end = self.random.pick(&[outage.start + 1, outage.end]);
        self.enter(Slot { mw, end, ..outage });
        match self.random.below(4) {
            0 => self.enter(Slot { mw: 0, ..outage }),
            1 => self.enter(Slot { end: outage.start, ..outage }),
            2 => {
                let some = self.some_entry().map_or(outage, |(entry, _)| entry);
                self.enter(Slot { mw, ..some });
            }
            _ => (),
        }
    }

    /// A crowd that fills its fullest minute, and then breaks a rule.
    fn broken_crowd(&mut self, regime_end: u32) {
        let crowd = self.random.crowd(0, regime_end as i128);
        let mut held = [&crowd.held[..], &[crowd.outage]].concat();
        let twin = Slot { mw: 1, cause: crowd.causes[0], ..crowd.outage };
        // Two of one start and causes apart, one of them of 1 MW less.
        if crowd.outage.mw > 1 {
            held.last_mut().unwrap().mw -= 1;
            held.push(twin);
        }
        held.sort_by_key(Slot::key);
        self.put_log(&held, regime_end);
        self.log_call();
        self.break_crowd(&held, &crowd);
        let k = self.any_k();
        let outage = Slot { cause: crowd.causes[1], ..crowd.outage };
        self.enter(outage);
        self.cancel(held[0].start, held[0].cause);
        for call in [
            Call::Close { minute: self.desk.log.closed },
            Call::Lost { a: crowd.fullest, b: crowd.fullest + 1 },
            Call::Availability { year: 1 },
            Call::YearLog { k },
            Call::enter_plan(Plan { start: 0, length: 1, step: 1, count: 1, mw: 1, cause: 1 }),
        ] {
            self.call(call);
        }
        let room = self.some_room(k);
        self.call(Call::Write { k, room });
        self.write_sheet();
    }

    /// Sets a slot of the log that stands, which has these entries, so that a
    /// rule is broken.
    fn break_crowd(&mut self, held: &[Slot], crowd: &Crowd) {
        let place = self.random.below(held.len() as u64) as usize;
        let same = held.windows(2).position(|pair| pair[0].start == pair[1].start);
        let full = held.iter().position(|entry| {
            entry.start <= crowd.fullest && crowd.fullest < entry.end && entry.mw < 1_000
        });
        let (slot, outage) = match (self.random.below(6), same, full) {
            (0, _, _) => (place, Slot { cause: 0, ..held[place] }),
            (1, Some(same), _) => (same + 1, Slot { cause: held[same].cause, ..held[same + 1] }),
            (2, Some(same), _) => {
                let (one, other) = (held[same], held[same + 1]);
                self.call(Call::set_slot(same as u16, Slot { cause: other.cause, ..one }));
                (same + 1, Slot { cause: one.cause, ..other })
            }
            (3 | 4, _, Some(full)) => {
                let more = self.random.pick(&[1, 1, 1_000 - held[full].mw]);
                (full, Slot { mw: held[full].mw + more, ..held[full] })
            }
            _ => {
                let free = self.random.pick(&[held.len(), SLOTS - 1]);
                let cause = self.random.pick(&[1, 2, 255]);
                (free, Slot { cause, ..Slot::default() })
            }
        };
        self.call(Call::set_slot(slot as u16, outage));
    }

    /// A return whose outages overlap up to 1,000 MW, or that is wrong by one of
    /// them, read, written and printed.
    fn crowd_in_a_return(&mut self) {
        let number = self.random.fair_number();
        let (first, end) = year_minutes(number, LAST_REGIME_END).unwrap();
        let crowd = self.random.crowd(first, end);
        let mut outages = [&crowd.held[..], &[crowd.outage_past_room(0)]].concat();
        let way = self.random.below(13);
        match way {
            0 => outages.last_mut().unwrap().mw += 1,
            1 => outages.push(Slot { mw: 1, ..self.random.pick(&outages) }),
            2 => {
                let some = self.random.pick(&outages);
                let cause = crowd.causes[0];
                let room = some.mw > 1;
                outages.push(Slot { mw: 1, cause, end: some.start + 1, ..some });
                if room {
                    let first = outages.iter_mut().find(|outage| **outage == some).unwrap();
                    first.mw -= 1;
                }
            }
            _ => (),
        }
        outages.sort_by_key(Slot::key);
        if way == 2 {
            let same = outages.windows(2).position(|pair| pair[0].start == pair[1].start);
            let place = same.unwrap_or(0);
            outages.swap(place, place + 1);
        }
        if (3..=5).contains(&way) {
            outages = self.random.three_of_which_one_has_ended(first);
        }
        let bytes = if way >= 9 {
            // Behind those that start before it, where it would be taken.
            let mut before = crowd.held.clone();
            before.retain(|held| held.start < crowd.outage.start);
            let value = self.random.wrong_value(&crowd.outage);
            self.return_with(number, &before, value)
        } else {
            self.return_of(number, 0, &outages)
        };
        let k = self.any_k();
        self.call(Call::Read { k, bytes: bytes.clone() });
        let room = self.some_room(k);
        self.call(Call::Write { k, room });
        self.call(Call::Refile { room, bytes: bytes.clone() });
        self.call(Call::Print { bytes });
    }

    /// A plan one of whose windows meets a crowd: a MW too much, exactly what
    /// there is room for, by a cause that is held, by cause 0, and beside itself.
    fn crowd_and_a_plan(&mut self, regime_end: u32) {
        let crowd = self.random.crowd(0, regime_end as i128);
        let outage = crowd.outage;
        let length = outage.end - outage.start;
        let step = (length as i128 / MINUTES_OF_A_DAY + self.random.pick(&[1, 3, 14])) as u16;
        let minutes = step as i128 * MINUTES_OF_A_DAY;
        let before = self.random.below(4) as i128;
        let before = before.min((outage.start as i128) / minutes);
        let behind = self.random.below(3) as i128;
        let behind = behind.min((regime_end as i128 - outage.end as i128) / minutes);
        let plan = Plan {
            start: minute(outage.start as i128 - before * minutes),
            length,
            step,
            count: (before + 1 + behind) as u16,
            mw: outage.mw,
            cause: outage.cause,
        };
        self.put_log(&crowd.held, regime_end);
        let too_much = Plan { mw: plan.mw + 1, ..plan };
        self.call_or_spell(Call::enter_plan(too_much));
        let wrong = Plan { cause: 0, ..plan };
        match self.random.below(5) {
            0 => self.call(Call::enter_plan(wrong)),
            1 => self.call(Call::list_plan(regime_end, wrong)),
            2 => self.call_or_spell(Call::list_plan(regime_end, plan)),
            3 => {
                // The window of the crowd starts as one that is held.
                let same = self.random.pick(&crowd.held);
                let cause = if same.start == outage.start { same.cause } else { plan.cause };
                self.call(Call::enter_plan(Plan { cause, mw: 1, ..plan }));
            }
            _ => (),
        }
        self.call_or_spell(Call::enter_plan(plan));
        self.call(Call::enter_plan(plan));
        let beside = Plan { cause: crowd.causes[0], mw: 1, ..plan };
        self.call(Call::enter_plan(beside));
        if before > 0 {
            let beside = Plan { count: before as u16, mw: 1_000 - plan.mw, ..beside };
            self.call(Call::enter_plan(beside));
        }
        let (a, b) = (outage.start, outage.end);
        self.call(Call::Lost { a, b });
        self.cancel(plan.start, plan.cause);
    }

    /// Messages of plans with a cause, left out, written out or cut.
    fn messages_with_causes(&mut self) {
        for _ in 0..5 {
            let cause = self.random.pick(&[0, 2, 7, 255, 1]);
            let plan = Plan { cause, ..self.random.some_plan(LAST_REGIME_END) };
            let bytes = plan.bytes();
            let room = self.random.room_for(bytes.len() as u32);
            self.call_or_spell(Call::write_plan(plan, room));
            let value = &Plan { cause: 1, ..plan }.bytes()[3..];
            let mut wrong = match self.random.below(6) {
                0 | 1 => field(30, &[value, &[1]].concat()),
                2 => field(30, &[value, &[2, 2]].concat()),
                3 => field(30, &value[..13]),
                4 => bytes[..bytes.len() - 1].to_vec(),
                _ => bytes.clone(),
            };
            match self.random.below(4) {
                0 => wrong.extend(vec![self.random.pick(&[0, 1, 30]); 1]),
                1 => wrong.extend(&bytes),
                2 => wrong.resize(self.random.pick(&[8_192, 8_193]), 0),
                _ => (),
            }
            self.call(Call::ReadPlan { bytes });
            self.call(Call::ReadPlan { bytes: wrong });
        }
    }

    /// Logs that share a minute or have a cause, written as sheets; and pieces
    /// that share one, or are too long, read.
    fn overlaps_on_sheets(&mut self, regime_end: u32) {
        for _ in 0..4 {
            let (start, length) = (self.random.between(0, 12_000_000), 1_500);
            let end = start + self.random.pick(&[1, 60, length]);
            let first = slot(start, end, self.random.pick(&[1, 500, 999]), 1);
            let from = self.random.pick(&[end - 1, end - 1, end, end, start]);
            let cause = if from == start { 2 } else { self.random.pick(&[1, 1, 1, 2, 255]) };
            let mut entries = vec![first, slot(from, end + 5, 1, cause)];
            if self.random.one_in(3) {
                entries.push(slot(end + 5, end + 6, 1, 1));
            }
            if self.random.one_in(4) {
                entries = vec![Slot { cause: self.random.pick(&[1, 2, 255]), ..first }];
            }
            self.put_log(&entries, regime_end);
            self.write_sheet();
            self.write_sheet();
            if self.random.one_in(2) {
                let count = entries.len() as u64 + 1;
                self.call(Call::SetCount { count, regime_end });
                self.write_sheet();
            }
        }
        for _ in 0..4 {
            let start = self.random.between(0, 8_000) * MINUTES_OF_A_DAY;
            let part = slot(start, start + 60, self.random.pick(&[1, 2, 500]), 1);
            let from = self.random.pick(&[start, start, start + 59, start + 60]);
            let next = slot(from, start + 61, part.mw, 1);
            let pieces = [part, next].map(|part| Piece { continued: false, part });
            let mut bytes = joined(&pieces);
            if self.random.one_in(3) {
                let tag = self.random.pick(&[20, 21]);
                let value = [span_value(&next), vec![self.random.pick(&[0, 1, 2])]].concat();
                bytes.truncate(self.random.pick(&[0, 13]));
                bytes.extend(field(tag, &value));
            }
            self.read_sheet(regime_end, bytes);
            let cause = self.random.pick(&[1, 1, 2]);
            self.cancel(part.start, cause);
        }
    }

    /// Hundreds of entries that run at once, read as a return: all from one start
    /// on, by causes, or each from a minute or three after the one before.
    fn many_running(&mut self) {
        self.put_book(LAST_REGIME_END);
        let number = self.random.fair_number();
        let (first, _) = year_minutes(number, LAST_REGIME_END).unwrap();
        let step = self.random.pick(&[0, 1, 1, 3]);
        let count = self.random.pick(&[100, 255, 333, 399, 400, 400]);
        let count = if step == 0 { count.min(255) } else { count };
        let mw = self.random.pick(&[1, 2, 1_000 / count]).min(1_000 / count);
        let all = (count - 1) * step;
        let length = self.random.pick(&[all + 1, all + 1, 2_000]);
        let one = |i: i128| {
            let cause = if step == 0 { i as u8 + 1 } else { 1 };
            slot(first + i * step, first + i * step + length, mw as u16, cause)
        };
        let outages: Vec<Slot> = (0..count).map(one).collect();
        let bytes = self.return_of(number, 0, &outages);
        let k = self.any_k();
        self.call(Call::Read { k, bytes });
        self.call(Call::TakeLog { k });
        // In minute `last` all of them run, at `over` none any more.
        let (last, over) = (first + all, first + all + length);
        let room = (1_000 - count * mw) as u16;
        for more in [1, 0] {
            self.enter(slot(last, last + 1, room + more, 200));
            self.enter(slot(first, over, room + more, 201));
        }
        self.enter(slot(over, over + 5, 1_000, 1));
        self.enter(slot(over - 1, over + 5, 1_001 - mw as u16, 1));
        self.enter(slot(over - 1, over + 5, 1_000 - mw as u16, 1));
        for _ in 0..4 {
            let held = self.random.pick(&outages);
            let mw = self.random.pick(&[1, 1_000]);
            self.enter(Slot { mw, ..held });
            let cause = self.random.pick(&[held.cause, held.cause, 0, 202]);
            self.cancel(held.start, cause);
            self.enter(held);
            self.call(Call::Lost { a: held.start, b: held.end });
        }
        for _ in 0..6 {
            self.log_call();
        }
        self.write_sheet();
        self.call(Call::YearLog { k });
        let room = self.some_room(k);
        self.call(Call::Write { k, room });
    }
}

#[cfg(test)]
mod tests {
    use super::*;
    use crate::desk::Desk;
    use crate::generate::tests::seen;
    use crate::model::log::{lost_in, Log, MOST_MW};
    use crate::model::yearly_return::{field_at, number, outage_of, read, SPAN};

    type Edges = Vec<(&'static str, bool)>;

    /// The first two numbers of an answer.
    fn head(answer: &str) -> (u8, usize) {
        let mut numbers = answer.split(' ').map(|number| number.parse().unwrap_or(0));
        (numbers.next().unwrap_or(0) as u8, numbers.next().unwrap_or(0))
    }

    /// What a log of these entries loses in a minute, and how many run in it.
    fn running(entries: &[Slot], minute: u32) -> (i128, usize) {
        let run = entries.iter().filter(|held| held.start <= minute && minute < held.end);
        (lost_in(entries, minute as i128), run.count())
    }

    /// The edges of an outage that a log has no room for, by where it has none:
    /// the minutes at which the load may rise are its start and those inside it.
    fn full_edges(held: &[Slot], outage: &Slot) -> Edges {
        let inside = held.iter().filter(|h| outage.start < h.start && h.start < outage.end);
        let inside: Vec<u32> = inside.map(|held| held.start).collect();
        let over = |minute: &u32| running(held, *minute).0 + outage.mw as i128 > MOST_MW;
        let at_start = over(&outage.start);
        let last = outage.end - 1;
        let at_last = inside.iter().all(|at| !over(at) || *at == last) && over(&last);
        let beside = |held: &Slot| {
            !held.shares_a_minute(outage) || held.mw as i128 + outage.mw as i128 <= MOST_MW
        };
        let started = held.iter().any(|h| h.start < outage.start && h.shares_a_minute(outage));
        vec![
            ("4 at its start alone", at_start && !inside.is_empty() && !inside.iter().any(over)),
            ("4 at a start inside alone", !at_start && inside.iter().any(|at| over(at))),
            ("4 in its last minute alone", !at_start && at_last),
            ("4 by one that runs since before", at_start && started),
            ("4 by no two alone", held.iter().all(beside)),
        ]
    }

    /// The edges of an outage that a log takes.
    fn taken_edges(held: &[Slot], outage: &Slot) -> Edges {
        let own = |minute: u32| running(held, minute).0 + outage.mw as i128;
        let starts = held.iter().filter(|held| held.start == outage.start);
        let causes: Vec<u8> = starts.map(|held| held.cause).collect();
        let met = held.iter().filter(|held| held.shares_a_minute(outage));
        let all: i128 = met.map(|held| held.mw as i128).sum();
        let ended = |held: &Slot| held.end == outage.start && own(outage.start) <= MOST_MW;
        let behind = |held: &Slot| held.start == outage.end && own(outage.end - 1) <= MOST_MW;
        let too_much = |held: &Slot, at: u32| own(at) + held.mw as i128 > MOST_MW;
        vec![
            (
                "one that has ended is not counted",
                held.iter().any(|held| ended(held) && too_much(held, outage.start)),
            ),
            (
                "one behind it is not counted",
                held.iter().any(|held| behind(held) && too_much(held, outage.end - 1)),
            ),
            ("more than 1,000 MW, but never at once", all + outage.mw as i128 > MOST_MW),
            ("the same start and another cause", !causes.is_empty()),
            (
                "between two of its start",
                causes.iter().any(|cause| *cause < outage.cause)
                    && causes.iter().any(|cause| *cause > outage.cause),
            ),
            ("cause 255", outage.cause == 255),
        ]
    }

    /// The edges of an entering on a log that keeps the rules.
    fn entering_edges(log: &Log, outage: &Slot, number: u8) -> Edges {
        let held = log.entries();
        let again = held.iter().any(|held| held.key() == outage.key());
        let old = outage.start < log.closed;
        let in_range = outage.start < outage.end && outage.end <= log.regime_end;
        let mw_allowed = (1..=MOST_MW).contains(&(outage.mw as i128));
        let by_cause = number == 3 && mw_allowed;
        let mut edges = vec![
            ("3 by cause 0", by_cause),
            ("3 by cause 0 in closed time", by_cause && old),
            ("3 by MW, start and cause held", number == 3 && again),
            ("2 and cause 0", number == 2 && outage.cause == 0),
        ];
        if !in_range || !mw_allowed || outage.cause == 0 {
            return edges;
        }
        let room = log.has_room_beside(outage);
        let full = log.count as usize == SLOTS;
        let minutes = held.iter().map(|held| held.start).chain([outage.start]);
        let inside = minutes.filter(|at| (outage.start..outage.end).contains(at));
        let (most, beside) = inside.map(|at| running(held, at)).max().unwrap();
        let lost = most + outage.mw as i128;
        let (taken, clash) = (number == 0 && lost == 1_000, number == 4 && lost == 1_001);
        edges.extend([
            ("1,000 MW beside one", taken && beside == 1),
            ("1,000 MW beside two", taken && beside == 2),
            ("1,000 MW beside ten", taken && beside >= 10),
            ("1,000 MW beside a hundred", taken && beside >= 100),
            ("1,001 MW beside one", clash && beside == 1),
            ("1,001 MW beside two", clash && beside == 2),
            ("1,001 MW beside ten", clash && beside >= 10),
            ("1,001 MW beside a hundred", clash && beside >= 100),
            ("19 with room", number == 19 && room),
            ("19 and 4", number == 19 && !room),
            ("19 and 5", number == 19 && full),
            ("4 and 5", number == 4 && full),
            ("5 where it would overlap", number == 5 && beside > 0),
            ("16 and 19", number == 16 && again),
            ("16 and 4", number == 16 && !room && !again),
        ]);
        match number {
            0 => edges.extend(taken_edges(held, outage)),
            4 => edges.extend(full_edges(held, outage)),
            _ => (),
        }
        edges
    }

    fn cancelling_edges(log: &Log, (start, cause): (u32, u8), number: u8) -> Edges {
        let of_start = log.entries().iter().filter(|held| held.start == start).count();
        let held = log.entries().iter().any(|held| held.key() == (start, cause));
        vec![
            ("cancel one of a start", number == 0 && of_start > 1),
            ("cancel by another cause", number == 0 && cause != 1),
            ("cancel 6 by the wrong cause", number == 6 && of_start > 0 && cause > 0),
            ("cancel 6 by cause 0", number == 6 && of_start > 0 && cause == 0),
            ("cancel 16 by the wrong cause", number == 16 && of_start > 0 && !held),
        ]
    }

    /// The edges of a log that breaks one rule alone, and none but these.
    fn broken_edges(log: &Log) -> Edges {
        if log.count as usize > SLOTS {
            return Vec::new();
        }
        let (held, free) = log.slots.split_at(log.count as usize);
        let repaired = |change: &dyn Fn(&mut Vec<Slot>)| {
            let mut entries = held.to_vec();
            change(&mut entries);
            let mut other = log.clone();
            other.hold(&entries);
            other.keeps_rules()
        };
        let twice = held.windows(2).position(|pair| pair[0].key() == pair[1].key());
        let turned = held
            .windows(2)
            .position(|pair| pair[0].start == pair[1].start && pair[0].cause > pair[1].cause);
        let zero = held.iter().position(|held| held.cause == 0);
        let most = held.iter().map(|at| running(held, at.start).0).max().unwrap_or(0);
        let in_order = held.windows(2).all(|pair| pair[0].key() < pair[1].key());
        let good = |held: &Slot| log.check_outage(held).is_ok();
        let only_full = in_order && held.iter().all(good) && most > MOST_MW;
        let pairs = held.windows(2).all(|pair| {
            !pair[0].shares_a_minute(&pair[1]) || pair[0].mw + pair[1].mw <= MOST_MW as u16
        });
        let cause_alone =
            |slot: &Slot| slot.cause > 0 && Slot { cause: 0, ..*slot } == Slot::default();
        let zeros = free.iter().all(|slot| *slot == Slot::default() || cause_alone(slot));
        let nothing_free = free.iter().all(|slot| *slot == Slot::default());
        vec![
            (
                "1 by a held cause 0",
                nothing_free
                    && zero.is_some_and(|at| {
                        (1..=255).any(|cause| repaired(&|entries| entries[at].cause = cause))
                    }),
            ),
            (
                "1 by start and cause twice",
                nothing_free
                    && twice.is_some_and(|at| {
                        repaired(&|all| {
                            all.remove(at);
                        })
                    }),
            ),
            (
                "1 by the order of causes",
                nothing_free && turned.is_some_and(|at| repaired(&|all| all.swap(at, at + 1))),
            ),
            ("1 by a minute of 1,001 MW", only_full && most == 1_001 && nothing_free),
            ("1 by no two side by side", only_full && pairs && nothing_free),
            ("1 by a free slot with a cause", zeros && !nothing_free && repaired(&|_| ())),
        ]
    }

    /// The edges of a return's reading.
    fn reading_edges(bytes: &[u8], (refusal, place): (u8, usize)) -> Edges {
        if refusal == 0 {
            let year = read(bytes).unwrap();
            let held = year.log.entries();
            let loads = held.iter().map(|at| running(held, at.start));
            let most = loads.max().unwrap_or((0, 0));
            return vec![
                ("read a cause", held.iter().any(|held| held.cause > 1)),
                ("read 1,000 MW of two or more", most.0 == MOST_MW && most.1 > 1),
                ("read a hundred that run", most.1 >= 100),
            ];
        }
        let Some((7, value, _)) = field_at(bytes, place) else { return Vec::new() };
        let Ok(before) = read(&bytes[..place]) else { return Vec::new() };
        let held = before.log.entries();
        let rest = value.get(SPAN..).unwrap_or_default();
        // Whether the field would be taken by another cause.
        let span = value.get(..SPAN).unwrap_or(&[0; SPAN]);
        let other = outage_of(span, 2);
        let taken = before.log.clone().enter(other).is_ok()
            && held.last().is_none_or(|last| last.key() < other.key());
        let mut edges = vec![
            ("13 by a 1 written out", taken && rest == [1]),
            ("13 by cause 0", taken && rest == [0]),
            ("13 by a byte too many", taken && rest.len() == 2),
            ("13 by a byte too few", value.len() == SPAN - 1),
        ];
        if ![SPAN, SPAN + 1].contains(&value.len()) {
            return edges;
        }
        let cause = value.get(SPAN).copied().unwrap_or(1);
        let outage = outage_of(&value[..SPAN], cause);
        let Some(last) = held.last().copied() else { return edges };
        if before.log.check_outage(&outage).is_err() {
            return edges;
        }
        let room = before.log.has_room_beside(&outage);
        let same = last.start == outage.start;
        let behind = last.key() < outage.key();
        let least = Slot { mw: outage.mw - 1, ..outage };
        edges.extend([
            ("13 by start and cause twice", room && last.key() == outage.key()),
            ("13 by the order of causes", room && same && last.cause > outage.cause),
            ("13 by a minute above 1,000 MW", behind && !room),
            (
                "13 by a minute of 1,001 MW",
                behind && !room && (least.mw == 0 || before.log.has_room_beside(&least)),
            ),
            ("13 not by the last", behind && !room && !last.shares_a_minute(&outage)),
        ]);
        edges
    }

    fn plan_edges(log: &Log, plan: &Plan, (refusal, at): (u8, usize)) -> Edges {
        let window = |i: u64| plan.outage(i);
        let lost = |window: Slot| {
            let held = log.entries();
            let starts = held.iter().map(|held| held.start).chain([window.start]);
            let inside = starts.filter(|at| (window.start..window.end).contains(at));
            let most = inside.map(|at| running(held, at)).max().unwrap();
            (most.0 + window.mw as i128, most.1)
        };
        let taken = |i| {
            let (lost, beside) = lost(window(i).unwrap());
            lost == MOST_MW && beside > 0
        };
        let clash = |i| lost(window(i).unwrap()).0 == MOST_MW + 1;
        vec![
            ("plan at 1,000 MW", refusal == 0 && (1..=plan.count as u64).any(taken)),
            ("plan 4 at 1,001 MW", refusal == 4 && clash(at as u64)),
            ("plan 3 by cause 0", refusal == 3 && plan.cause == 0),
            ("plan by cause 255", refusal == 0 && plan.cause == 255),
            (
                "plan beside another's windows",
                refusal == 0
                    && log.entries().iter().any(|held| {
                        held.start == plan.start && held.end == plan.start + plan.length
                    }),
            ),
        ]
    }

    fn message_edges(bytes: &[u8], (refusal, place): (u8, usize)) -> Edges {
        let head = bytes.get(..3).map_or((0, 0), |head| (head[0], number(&head[1..])));
        let last = bytes.get(17).copied();
        let with_cause = head == (30, 15) && bytes.len() >= 18;
        vec![
            ("message with a cause", refusal == 0 && bytes.len() == 18),
            ("message with cause 0", refusal == 0 && last == Some(0)),
            ("message with a 1 written out", place == 0 && with_cause && last == Some(1)),
            ("message of a value of 16", place == 0 && head == (30, 16)),
            ("message of a value of 13", place == 0 && head == (30, 13)),
            ("message without its cause", place == 0 && head == (30, 15) && bytes.len() == 17),
            ("message with a byte behind", place == 18 && bytes.len() == 19),
            ("message and another", place == 18 && bytes.len() == 36),
            ("message of 8,192 bytes", place == 18 && bytes.len() == 8_192),
        ]
    }

    fn sheet_edges(log: &Log, room: u32, number: u8) -> Edges {
        let held = if log.count as usize <= SLOTS { log.entries() } else { &[] };
        let shared = held.windows(2).any(|pair| pair[0].shares_a_minute(&pair[1]));
        let little = held.iter().all(|at| running(held, at.start).0 <= 2);
        let cause = held.iter().any(|held| held.cause != 1);
        let touching = held.windows(2).any(|pair| pair[0].end == pair[1].start);
        vec![
            ("20 by an overlap", number == 20 && shared && !cause),
            ("20 by an overlap of 2 MW", number == 20 && shared && !cause && little),
            ("20 by a cause", number == 20 && cause && !shared),
            ("20 without room", number == 20 && room == 0),
            ("1 and 20", number == 1 && (shared || cause)),
            ("touching on a sheet", number == 0 && touching),
        ]
    }

    fn piece_edges(bytes: &[u8], (refusal, place): (u8, usize)) -> Edges {
        let value = field_at(bytes, place).map_or(&[][..], |(_, value, _)| value);
        let before = place.checked_sub(10).and_then(|at| bytes.get(at..place));
        let first = before.map(|value| outage_of(value, 1)).unwrap_or_default();
        let shared = refusal == 4 && value.len() == SPAN;
        let next = if shared { outage_of(value, 1) } else { Slot::default() };
        vec![
            ("a piece of 11 bytes", refusal == 13 && value.len() == SPAN + 1),
            ("pieces of 2 MW in a minute", shared && first.mw + next.mw <= 2),
            ("pieces of one start", shared && first.start == next.start),
        ]
    }

    /// What a call tries of the rules on overlaps and causes, on what stands
    /// before it.
    fn edges(desk: &Desk, call: &Call, answer: &str) -> Vec<&'static str> {
        let (refusal, second) = head(answer);
        let log = &desk.log;
        let spelled = call.clone().spells().is_some_and(|spelled| *spelled);
        let mut edges = match call {
            Call::Read { bytes, .. } => reading_edges(bytes, (refusal, second)),
            Call::ReadPlan { bytes } => message_edges(bytes, (refusal, second)),
            Call::ReadSheet { bytes, .. } => piece_edges(bytes, (refusal, second)),
            Call::WriteSheet { room } => sheet_edges(log, *room, refusal),
            Call::Enter { .. } | Call::Cancel { .. } | Call::EnterPlan { .. } if refusal == 1 => {
                broken_edges(log)
            }
            Call::Enter { outage, .. } => entering_edges(log, outage, refusal),
            Call::Cancel { start, cause, .. } => cancelling_edges(log, (*start, *cause), refusal),
            Call::EnterPlan { plan, .. } => plan_edges(log, plan, (refusal, second)),
            _ => Vec::new(),
        };
        edges.push(match call {
            Call::Enter { outage, .. } => ("enter spells a 1", spelled && outage.cause == 1),
            Call::Cancel { cause, .. } => ("cancel spells a 1", spelled && *cause == 1),
            Call::EnterPlan { plan, .. } => ("plan spells a 1", spelled && plan.cause == 1),
            Call::WritePlan { plan, .. } => ("message spells a 1", spelled && plan.cause == 1),
            Call::PrintOutage { outage, .. } => ("print spells a 1", spelled && outage.cause == 1),
            _ => ("", false),
        });
        edges.into_iter().filter(|edge| edge.1).map(|edge| edge.0).collect()
    }

    #[test]
    fn the_edges_of_overlaps_are_frequent() {
        let seen = seen(edges);
        let entering = 4 + 15 + 5 + 6;
        let (cancelling, broken, reading) = (5, 6, 3 + 4 + 5);
        let (plans, sheets, spelled) = (5 + 9, 6 + 3, 5);
        let all = entering + cancelling + broken + reading + plans + sheets + spelled;
        assert_eq!(seen.len(), all, "{seen:?}");
        assert!(seen.values().all(|times| *times >= 20), "{seen:?}");
    }
}
