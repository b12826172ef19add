//! Blocks about plans of repeating windows.

use super::logs::minute;
use super::random::Random;
use super::Generator;
use crate::model::calendar::MINUTES_OF_A_DAY;
use crate::model::log::{regime_end_in_range, Slot, LAST_REGIME_END, SLOTS};
use crate::model::plan::{read, Plan};
use crate::model::yearly_return::MOST_BYTES;
use crate::script::Call;

/// The bytes of a plan of the usual cause.
const MESSAGE: usize = 17;

/// The minutes from a plan's first start to that of its outage i.
fn minutes_to(plan: &Plan, i: u64) -> i128 {
    (i as i128 - 1) * plan.step_minutes() as i128
}

/// The minute at which a plan's last outage ends, however far off.
fn last_end(plan: &Plan) -> i128 {
    plan.start as i128 + minutes_to(plan, plan.count as u64) + plan.length as i128
}

/// Leaves out the last outages of a plan until the rest end in the regime.
fn shorten(plan: &mut Plan, regime_end: u32) {
    while plan.count > 1 && last_end(plan) > regime_end as i128 {
        plan.count -= 1;
    }
}

impl Random {
    /// A plan of so many outages that an empty log to the regime end takes.
    fn plan_of(&mut self, count: u16, regime_end: u32) -> Plan {
        let most = (regime_end as i128 / MINUTES_OF_A_DAY / count as i128) as u16;
        let step = self.pick(&[1, 1, 2, 7, 14, most]).min(most);
        let filled = step as u32 * MINUTES_OF_A_DAY as u32;
        let any = self.between(1, filled as i128) as u32;
        let length = self.pick(&[1, 120, 120, filled, filled - 1, any]);
        let (mw, cause) = (self.fair_mw(), self.fair_cause());
        let plan = Plan { start: 0, length, step, count, mw, cause };
        Plan { start: self.first_start(&plan, regime_end), ..plan }
    }

    /// A first start: at minute 0, with the last end at the regime end, some
    /// outage at a year end or across it, at a midnight or across it, or any.
    fn first_start(&mut self, plan: &Plan, regime_end: u32) -> u32 {
        let latest = regime_end as i128 - last_end(&Plan { start: 0, ..*plan });
        let some = self.some_outage(plan.count);
        let any = self.between(0, latest);
        let start = match self.below(7) {
            0 => self.between(0, 1),
            1 => latest,
            2 | 3 => {
                let before = self.pick(&[1, 30, plan.length as i128]);
                self.year_end(regime_end) as i128 - before - minutes_to(plan, some)
            }
            4 => any / MINUTES_OF_A_DAY * MINUTES_OF_A_DAY - 30,
            5 => any / MINUTES_OF_A_DAY * MINUTES_OF_A_DAY,
            _ => any,
        };
        start.clamp(0, latest) as u32
    }

    /// The number of an outage: the first, the second, the last or any.
    fn some_outage(&mut self, count: u16) -> u64 {
        let last = count.max(1) as u64;
        let any = 1 + self.below(last);
        self.pick(&[1, 2, 2, any, any, last]).min(last)
    }

    fn fair_plan(&mut self, regime_end: u32) -> Plan {
        let any = self.between(2, 30) as u16;
        let count = self.pick(&[1, 2, 3, 3, any, any, any, 399, 400]);
        self.plan_of(count, regime_end)
    }

    /// Puts a number of a plan past a limit, or two of them.
    fn spoil_plan(&mut self, plan: &mut Plan) {
        let filled = plan.step_minutes() as u32;
        match self.below(13) {
            0 => plan.count = 0,
            1 => plan.count = 401,
            2 => plan.count = self.pick(&[402, 65_535, 65_535]),
            3 => plan.step = 0,
            4 => (plan.step, plan.count) = (0, 1),
            5 => plan.length = filled + 1,
            6 | 7 => plan.length = self.pick(&[u32::MAX, u32::MAX, u32::MAX, filled + (1 << 16)]),
            8 => plan.length = 0,
            9 => (plan.length, plan.count) = (0, self.pick(&[0, 401])),
            10 => plan.cause = 0,
            _ => plan.mw = self.pick(&[0, 1_001, 65_535]),
        }
    }

    /// A plan with some of its numbers past a limit.
    fn bad_plan(&mut self, regime_end: u32) -> Plan {
        let mut plan = self.fair_plan(regime_end);
        for _ in 0..self.pick(&[1, 1, 2, 2]) {
            self.spoil_plan(&mut plan);
        }
        plan
    }

    /// A plan of which some outage ends at the regime end or a minute past it.
    fn plan_at_the_end(&mut self, regime_end: u32) -> Plan {
        let mut plan = self.fair_plan(regime_end);
        let some = self.some_outage(plan.count);
        let end = regime_end as i128 + self.pick(&[0, 1, 1]);
        plan.start = minute(end - plan.length as i128 - minutes_to(&plan, some));
        if self.one_in(4) {
            plan.mw = self.pick(&[0, 1_001]);
        }
        plan
    }

    /// A plan with minutes at 2^32 or past it.
    fn far_plan(&mut self, regime_end: u32) -> Plan {
        let mut plan = self.fair_plan(regime_end);
        let whole = 1 << 32;
        match self.below(8) {
            0..=2 => {
                plan.start = minute(whole - plan.length as i128 + self.pick(&[-1, -1, 0, 0, 1]))
            }
            3 => plan.start = u32::MAX - self.pick(&[0, 1, 1_439, 1_440]),
            4 => (plan.step, plan.count) = (65_535, self.pick(&[1, 2, 46, 47, 400])),
            5 => (plan.start, plan.step, plan.count) = (u32::MAX, 65_535, 400),
            // In 32 bits the last outage comes round into the regime.
            _ => {
                let steps = self.between(46, 399);
                plan.count = steps as u16 + 1;
                let days = (whole - plan.start as i128) / (steps * MINUTES_OF_A_DAY) + 1;
                plan.step = days as u16;
            }
        }
        plan
    }

    /// A plan, good or at a limit, for a regime end that may be bad.
    pub fn some_plan(&mut self, regime_end: u32) -> Plan {
        let fair = regime_end_in_range(regime_end);
        let regime_end = if fair { regime_end } else { LAST_REGIME_END };
        match self.below(11) {
            0..=2 => self.fair_plan(regime_end),
            3..=6 => self.bad_plan(regime_end),
            7 | 8 => self.plan_at_the_end(regime_end),
            _ => self.far_plan(regime_end),
        }
    }

    /// An outage beside a plan's window: up to it, from its end on, sharing a
    /// minute with it, or in the gap before the next.
    fn beside_window(&mut self, plan: &Plan, window: Slot) -> Slot {
        let (s, e) = (window.start as i128, window.end as i128);
        let next = s + plan.step_minutes() as i128;
        let n = self.pick(&[1, 5, 60]);
        let stretches = [
            // Touching it.
            (s - n, s),
            (e, e + n),
            (e, next),
            // In the gap.
            (e + 1, e + 1 + n),
            (e + 1, next - 1),
            // Sharing its first minute, its last, one of them or all.
            (s - n, s + 1),
            (e - 1, e + n),
            (s, s + 1),
            (e - 1, e),
            ((s + e) / 2, (s + e) / 2 + 1),
            (s, e),
            (s, e),
            (s - n, e + n),
        ];
        let (start, end) = self.pick(&stretches);
        let (mw, cause) = (self.fair_mw(), self.pick(&[plan.cause, plan.cause, 1, 2]));
        Slot { start: minute(start), end: minute(end), mw, cause }
    }

    /// A message that is cut, changed or goes on; few of them are still plans.
    fn damaged_message(&mut self, plan: &Plan) -> Vec<u8> {
        let mut bytes = plan.bytes();
        let any = self.below(MESSAGE as u64) as usize;
        match self.below(10) {
            0 => bytes.truncate(any),
            1..=4 => bytes[0] = self.pick(&[0, 7, 7, 29, 29, 31, 31, 255]),
            5 => bytes[2] = self.pick(&[0, 13, 13, 15, 15]),
            6 => bytes[1] = self.pick(&[1, 1, 255]),
            7 => bytes[any] ^= 1 << self.below(8),
            8 => bytes.extend(plan.bytes()),
            _ => bytes.extend(vec![self.pick(&[0, 30]); self.pick(&[1, 1, 1, 2, 14])]),
        }
        bytes
    }

    /// A message about as long as the longest that is looked at, a plan in front
    /// or not.
    fn long_message(&mut self, plan: &Plan) -> Vec<u8> {
        let mut bytes = plan.bytes();
        if self.one_in(2) {
            bytes[self.pick(&[0, 2])] ^= 1;
        }
        let (most, more) = (MOST_BYTES, MOST_BYTES + 1);
        bytes.resize(self.pick(&[most, most, most, more, more, more, most - 1, 2 * most]), 0);
        bytes
    }
}

impl Generator {
    /// Plans listed, entered into logs of all kinds, written and read.
    pub fn plan_work(&mut self) {
        let regime_end = self.random.fair_regime_end();
        self.put_book(regime_end);
        for _ in 0..22 {
            self.plan_on_an_empty_log(regime_end);
        }
        for _ in 0..6 {
            self.plan_among_entries(regime_end);
        }
        for _ in 0..10 {
            self.plan_by_room(regime_end);
        }
        for _ in 0..2 {
            self.plan_by_closed(regime_end);
            self.plan_again(regime_end);
            self.plan_on_a_broken_log(regime_end);
        }
        for _ in 0..6 {
            self.message_there_and_back();
        }
        self.damaged_messages();
    }

    /// A plan listed for a regime end, one in six of them bad, and entered into
    /// an empty log.
    fn plan_on_an_empty_log(&mut self, regime_end: u32) {
        let plan = self.random.some_plan(regime_end);
        let bad = self.random.one_in(6);
        let listed_to = if bad { self.random.bad_regime_end() } else { regime_end };
        self.call(Call::list_plan(listed_to, plan));
        self.call(Call::Empty { regime_end });
        self.enter_plan(plan);
    }

    /// Enters a plan, and asks now and then what the log then holds and loses.
    fn enter_plan(&mut self, plan: Plan) {
        self.call(Call::enter_plan(plan));
        match self.random.below(8) {
            0 => self.call(Call::ShowLog),
            1 => {
                let (a, b) = self.stretch();
                self.call(Call::Lost { a, b });
            }
            2 => {
                let regime_end = self.desk.log.regime_end;
                let at = self.random.year_end(regime_end);
                self.call(Call::Lost { a: 0, b: at });
                self.call(Call::Lost { a: at, b: regime_end });
            }
            _ => (),
        }
    }

    /// A plan on a log with an entry or two beside its windows.
    fn plan_among_entries(&mut self, regime_end: u32) {
        let plan = self.random.fair_plan(regime_end);
        self.call(Call::Empty { regime_end });
        for _ in 0..self.random.pick(&[1, 1, 2]) {
            let some = self.random.some_outage(plan.count);
            let window = plan.outage(some).unwrap();
            let outage = self.random.beside_window(&plan, window);
            self.call(Call::enter(outage));
        }
        self.enter_plan(plan);
    }

    /// A plan on a log that it fills exactly, or nearly, or has one outage too
    /// many for. The entries held stand between the plan's windows.
    fn plan_by_room(&mut self, regime_end: u32) {
        let held = self.random.pick(&[1, 1, 2, 200, 398, 398, 398, 399, 399, 400]);
        let first = self.random.between(0, 11_000_000) as u32;
        let holding = Plan { start: first, length: 1, step: 1, count: held, mw: 1, cause: 1 };
        self.call(Call::Empty { regime_end });
        self.call(Call::enter_plan(holding));
        let free = SLOTS as i128 - held as i128;
        let count = (free + self.random.pick(&[-1, 0, 0, 1, 1, 2])).clamp(1, 400) as u16;
        let (from, length) = self.random.pick(&[(1, 1), (1, 1_439), (700, 60), (0, 60)]);
        let plan = Plan { start: first + from, length, count, ..holding };
        if free > 0 && self.random.one_in(3) {
            // The outage that finds no room is held already, or clashes as well.
            let outage = plan.outage(free as u64).unwrap();
            let full = Slot { mw: 1_000, cause: 2, ..outage };
            let outage = self.random.pick(&[outage, full]);
            self.call(Call::enter(outage));
        }
        self.enter_plan(plan);
    }

    /// Plans that start beside the closed minute.
    fn plan_by_closed(&mut self, regime_end: u32) {
        let at = self.random.year_end(regime_end);
        self.call(Call::Empty { regime_end });
        if self.random.one_in(2) {
            let end = minute((at as i128 + self.random.pick(&[0, 1, 60])).min(regime_end as i128));
            self.call(Call::enter(Slot { start: at - 1, end, mw: 1, cause: 1 }));
        }
        self.close_at(at);
        for _ in 0..6 {
            let mut plan = self.random.fair_plan(regime_end);
            let step = plan.step_minutes() as i128;
            plan.start = minute(at as i128 + self.random.pick(&[-step, -1, -1, 0, 0, 0, 1, step]));
            match self.random.below(6) {
                0 => self.random.spoil_plan(&mut plan),
                1 => plan.mw = self.random.pick(&[0, 1_001]),
                2 => (plan.step, plan.count) = (3_000, 6),
                _ => shorten(&mut plan, regime_end),
            }
            self.enter_plan(plan);
        }
    }

    /// A plan entered twice; then again without one of its outages, and that
    /// outage alone; then the gaps between its windows.
    fn plan_again(&mut self, regime_end: u32) {
        let plan = self.random.fair_plan(regime_end);
        self.call(Call::Empty { regime_end });
        self.enter_plan(plan);
        self.enter_plan(plan);
        let some = self.random.some_outage(plan.count);
        let start = plan.outage(some).unwrap().start;
        self.call(Call::cancel(start, plan.cause));
        self.enter_plan(plan);
        self.enter_plan(Plan { start, count: 1, ..plan });
        let gap = plan.step_minutes() as u32 - plan.length;
        self.enter_plan(Plan { start: plan.start + plan.length, length: gap, ..plan });
    }

    /// A good plan and a bad one on a log that breaks a rule.
    fn plan_on_a_broken_log(&mut self, regime_end: u32) {
        let count = self.random.pick(&[0, 1, 3]);
        let outages = self.random.outages(count, 0, 40_000);
        self.put_open_log(&outages, regime_end);
        self.break_log(count);
        let plan = self.random.fair_plan(regime_end);
        self.call(Call::enter_plan(plan));
        let plan = self.random.bad_plan(regime_end);
        self.call(Call::enter_plan(plan));
    }

    /// A plan written and read again.
    fn message_there_and_back(&mut self) {
        let plan = self.random.some_plan(LAST_REGIME_END);
        let room = self.plan_room(&plan);
        self.call(Call::write_plan(plan, room));
        self.call(Call::ReadPlan { bytes: plan.bytes() });
    }

    /// Room for a plan, now and then all that can be lent or more.
    fn plan_room(&mut self, plan: &Plan) -> u32 {
        if self.random.one_in(12) {
            return self.random.pick(&[262_144, 262_145, u32::MAX]);
        }
        self.random.room_for(plan.bytes().len() as u32)
    }

    /// Messages that are too long, changed, and one in two times cut everywhere.
    fn damaged_messages(&mut self) {
        for _ in 0..4 {
            let plan = self.random.some_plan(LAST_REGIME_END);
            let bytes = self.random.long_message(&plan);
            self.call(Call::ReadPlan { bytes });
        }
        for _ in 0..14 {
            let plan = self.random.some_plan(LAST_REGIME_END);
            let bytes = self.random.damaged_message(&plan);
            self.read_and_write(bytes);
        }
        if self.random.one_in(2) {
            let bytes = self.random.some_plan(LAST_REGIME_END).bytes();
            for length in 0..MESSAGE {
                self.call(Call::ReadPlan { bytes: bytes[..length].to_vec() });
            }
        }
    }

    /// Reads a message, and writes the plan of an accepted one.
    fn read_and_write(&mut self, bytes: Vec<u8>) {
        let plan = read(&bytes);
        self.call(Call::ReadPlan { bytes });
        if let Ok(plan) = plan {
            let room = self.plan_room(&plan);
            self.call(Call::write_plan(plan, room));
        }
    }

    /// A call on any plan.
    pub fn any_plan_call(&mut self) -> Call {
        let regime_end = self.random.fair_regime_end();
        let mut plan = self.random.some_plan(regime_end);
        if self.random.one_in(2) {
            let numbers = self.random.next().to_be_bytes();
            let half = |at: usize| u16::from_be_bytes([numbers[at], numbers[at + 1]]);
            plan.start = self.random.edge_u32();
            (plan.step, plan.count, plan.mw) = (half(0), half(2), half(4));
            plan.cause = numbers[6];
        }
        match self.random.below(4) {
            0 => Call::list_plan(regime_end, plan),
            1 => Call::enter_plan(plan),
            2 => Call::ReadPlan { bytes: self.random.damaged_message(&plan) },
            _ => Call::write_plan(plan, self.plan_room(&plan)),
        }
    }
}

#[cfg(test)]
mod tests {
    use super::*;
    use crate::desk::Desk;
    use crate::generate::tests::seen;
    use crate::model::calendar::year_ends;
    use crate::model::log::Log;
    use crate::model::plan::{enter, list, Failure};
    use crate::script::KEPT;
    use std::collections::BTreeSet;

    type Edges<'a> = Vec<(&'a str, bool)>;

    /// The first two numbers of an answer: the refusal's, and that of the outage
    /// that fails, or the place.
    fn head(answer: &str) -> (u8, u64) {
        let mut numbers = answer.split(' ');
        let number = numbers.next().unwrap().parse().unwrap();
        (number, numbers.next().unwrap().parse().unwrap())
    }

    /// Whether a plan is refused by 17.
    fn is_wrong(plan: &Plan) -> bool {
        list(LAST_REGIME_END, plan).is_err_and(|failure| failure.0 == 17)
    }

    /// The windows of a plan that has minutes for all of them.
    fn windows(plan: &Plan) -> Vec<Slot> {
        (1..=plan.count as u64).map(|i| plan.outage(i).unwrap()).collect()
    }

    /// The edges of rule 18.2.
    fn wrong_edges(plan: &Plan, number: u8) -> Edges<'static> {
        let (refused, accepted) = (number == 17, number == 0);
        let (length, filled) = (plan.length as u64, plan.step_minutes());
        let counted = (1..=400).contains(&plan.count);
        let only_long = refused && plan.step > 0 && counted;
        vec![
            ("count 0", refused && plan.count == 0),
            ("count 401", refused && plan.count == 401),
            ("count 65,535", refused && plan.count == 65_535),
            ("step 0", refused && plan.step == 0 && counted),
            ("step 0 at count 1", refused && plan.step == 0 && plan.count == 1),
            ("a window a minute too long", only_long && length == filled + 1),
            ("a window far too long", only_long && length > 1 << 31),
            ("17 and of no length", refused && length == 0),
            ("17 and a bad MW", refused && !(1..=1_000).contains(&plan.mw)),
            ("a window that fills its step", accepted && length == filled && plan.count > 1),
            ("a window a minute less", accepted && length + 1 == filled && plan.count > 1),
            ("step 1", accepted && plan.step == 1 && plan.count > 1),
            ("step 14", accepted && plan.step == 14 && plan.count > 1),
            ("count 1", accepted && plan.count == 1),
            ("count 2", accepted && plan.count == 2),
            ("count 399", accepted && plan.count == 399),
            ("count 400", accepted && plan.count == 400),
        ]
    }

    /// The edges of 2 and 3, by the regime end, at the outage that fails.
    fn span_edges(plan: &Plan, regime_end: u32, (number, outage): (u8, u64)) -> Edges<'static> {
        let (late, accepted) = (number == 2 && plan.length > 0, number == 0);
        let (last, whole) = (plan.count as u64, 1i128 << 32);
        let (r, end) = (regime_end as i128, last_end(plan));
        let first_end = plan.start as i128 + plan.length as i128;
        vec![
            ("2 of no length", number == 2 && plan.length == 0 && outage == 1),
            ("2 at outage 1", late && outage == 1),
            ("2 at outage 2", late && outage == 2),
            ("2 at a middle outage", late && outage > 2 && outage < last),
            ("2 at the last outage", late && outage == last && last > 1),
            ("2 with a step of 65,535", late && plan.step == 65_535),
            ("3 with MW 0", number == 3 && plan.mw == 0),
            ("3 with MW 1,001", number == 3 && plan.mw == 1_001),
            ("MW 1", accepted && plan.mw == 1),
            ("MW 1,000", accepted && plan.mw == 1_000),
            ("3 and a later one past the regime end", number == 3 && end > r),
            ("3 and none past it", number == 3 && end <= r),
            ("the last to the regime end", accepted && end == r),
            ("the last a minute past it", late && outage == last && end == r + 1),
            ("past 2^32", late && end >= whole),
            ("round into the regime in 32 bits", late && outage == 2 && end % whole <= r),
            ("the first to 2^32", late && outage == 1 && first_end == whole),
            ("the first to 2^32 - 1", late && outage == 1 && first_end == whole - 1),
        ]
    }

    /// The edges of 16.
    fn closed_edges(log: &Log, plan: &Plan, number: u8) -> Edges<'static> {
        let old = plan.start < log.closed;
        let at_closed = log.closed > 0 && plan.start == log.closed;
        let past = last_end(plan) > log.regime_end as i128;
        let by_next = plan.start as u64 + plan.step_minutes() == log.closed as u64;
        vec![
            ("16 in the minute before", number == 16 && plan.start + 1 == log.closed),
            ("16 and the second in open time", number == 16 && plan.count > 1 && by_next),
            ("16 and a later one past the regime end", number == 16 && past),
            ("2 in closed time", number == 2 && old),
            ("3 in closed time", number == 3 && old),
            ("17 in closed time", number == 17 && old),
            ("accepted at the closed minute", number == 0 && at_closed),
            ("4 at the closed minute", number == 4 && at_closed),
        ]
    }

    /// The edges of 19, 4 and 5.
    fn clash_edges(log: &Log, plan: &Plan, (number, outage): (u8, u64)) -> Edges<'static> {
        let (held, last) = (log.count, plan.count as u64);
        let (clash, again) = (number == 4, number == 19);
        let equal = |window: &Slot| {
            log.entries().iter().any(|held| (held.start, held.end) == (window.start, window.end))
        };
        let all = || last > 1 && last_end(plan) < 1 << 32 && windows(plan).iter().all(equal);
        let (full, accepted) = (number == 5, number == 0);
        vec![
            ("4 at outage 1", clash && outage == 1 && last > 1),
            ("4 at outage 2", clash && outage == 2 && last > 2),
            ("4 at a middle outage", clash && outage > 2 && outage < last),
            ("4 at the last outage", clash && outage == last && last > 1),
            ("4 by an equal entry", clash && equal(&plan.outage(outage).unwrap())),
            ("4 where there is no room", clash && held + outage == SLOTS as u64 + 1),
            ("19 at outage 1", again && outage == 1 && last > 1),
            ("19 at outage 2", again && outage == 2 && last > 2),
            ("19 at a middle outage", again && outage > 2 && outage < last),
            ("19 at the last outage", again && outage == last && last > 1),
            ("the same plan twice", again && outage == 1 && all()),
            ("19 where there is no room", again && held + outage == SLOTS as u64 + 1),
            ("5 at outage 1", full && outage == 1),
            ("5 at outage 2", full && outage == 2 && held == 399),
            ("5 at a middle outage", full && outage > 2 && outage < last),
            ("5 at outage 400", full && outage == 400 && held == 1),
            ("an empty log filled", accepted && held == 0 && last == 400),
            ("a log of 1 filled", accepted && held == 1 && last == 399),
            ("a log of 399 filled", accepted && held == 399 && last == 1),
            ("a log of 398 with one slot left", accepted && held == 398 && last == 1),
        ]
    }

    /// The edges of an accepted plan's windows, among entries and in time.
    fn window_edges(log: &Log, plan: &Plan) -> Edges<'static> {
        let windows = windows(plan);
        let any = |is: &dyn Fn(&Slot) -> bool| windows.iter().any(is);
        let beside = |is: &dyn Fn(&Slot, &Slot) -> bool| {
            any(&|window| log.entries().iter().any(|held| is(held, window)))
        };
        let gap = |held: &Slot, window: &Slot| {
            let next = window.start as u64 + plan.step_minutes();
            held.start > window.end && (held.end as u64) < next
        };
        let day = |minute: u32| minute as i128 / MINUTES_OF_A_DAY;
        let ends: BTreeSet<i128> = year_ends(log.regime_end).collect();
        let year_end_in = |from: u32, to: u32| ends.range(from as i128 + 1..to as i128).count();
        let apart = |pair: &[Slot]| year_end_in(pair[0].end - 1, pair[1].start + 1) > 0;
        let step = plan.step_minutes();
        let one = plan.count == 1;
        vec![
            ("up to an entry", beside(&|held, window| held.start == window.end)),
            ("from an entry on", beside(&|held, window| held.end == window.start)),
            ("an entry in a gap", !one && beside(&gap)),
            (
                "one outage again",
                one && beside(&|held, window| held.start as u64 + step == window.start as u64),
            ),
            ("across a midnight", any(&|window| day(window.start) != day(window.end - 1))),
            ("across a year end", any(&|window| year_end_in(window.start, window.end) > 0)),
            ("up to a year end", any(&|window| ends.contains(&(window.end as i128)))),
            ("a year end between two outages", windows.windows(2).any(apart)),
            ("at minute 0", plan.start == 0),
        ]
    }

    fn entering_edges(log: &Log, plan: &Plan, answer: (u8, u64)) -> Edges<'static> {
        if !log.keeps_rules() {
            let right = list(LAST_REGIME_END, plan).is_ok();
            return vec![("1 and 17", is_wrong(plan)), ("1 and a good plan", right)];
        }
        let mut edges = wrong_edges(plan, answer.0);
        if answer.0 != 17 {
            edges.extend(span_edges(plan, log.regime_end, answer));
            edges.extend(clash_edges(log, plan, answer));
        }
        edges.extend(closed_edges(log, plan, answer.0));
        if answer.0 == 0 {
            edges.extend(window_edges(log, plan));
        }
        edges
    }

    fn listing_edges(plan: &Plan, regime_end: u32, answer: (u8, u64)) -> Edges<'static> {
        if answer.0 == 8 {
            let right = list(LAST_REGIME_END, plan).is_ok();
            return vec![("8 and 17", is_wrong(plan)), ("8 and a good plan", right)];
        }
        let mut edges = wrong_edges(plan, answer.0);
        if answer.0 != 17 {
            edges.extend(span_edges(plan, regime_end, answer));
        }
        edges
    }

    fn reading_edges(bytes: &[u8], (number, place): (u8, u64)) -> Edges<'static> {
        let refused = |at: u64| number == 13 && place == at;
        let length = bytes.len();
        let begins = |with: &[u8]| length == MESSAGE && bytes.starts_with(with);
        let plan = bytes.get(..MESSAGE).map_or(Err(0), read);
        vec![
            ("read", number == 0),
            ("read and wrong", number == 0 && plan.is_ok_and(|plan| is_wrong(&plan))),
            ("no bytes", refused(0) && length == 0),
            ("cut in the head", refused(0) && (1..3).contains(&length)),
            ("cut in the value", refused(0) && (3..MESSAGE).contains(&length)),
            ("tag 29", refused(0) && begins(&[29])),
            ("tag 31", refused(0) && begins(&[31])),
            ("tag 7", refused(0) && begins(&[7])),
            ("length 13", refused(0) && begins(&[30, 0, 13])),
            ("length 15", refused(0) && begins(&[30, 0, 15])),
            ("length 270", refused(0) && begins(&[30, 1, 14])),
            ("a byte more", refused(17) && length == MESSAGE + 1),
            ("two plans", refused(17) && length == 2 * MESSAGE),
            ("8,192 bytes", refused(17) && length == 8_192),
            ("8,192 bytes and no plan", refused(0) && length == 8_192),
            ("8,193 bytes", refused(8_192) && length == 8_193 && plan.is_ok()),
            ("8,193 bytes and no plan", refused(8_192) && length == 8_193 && plan.is_err()),
        ]
    }

    fn writing_edges(plan: &Plan, room: u32, (number, _): (u8, u64)) -> Edges<'static> {
        vec![
            ("no room at all", number == 14 && room == 0),
            ("room for 16", number == 14 && room == 16),
            ("room for 17", number == 0 && room == 17),
            ("room for 18", number == 0 && room == 18),
            ("room for more", number == 0 && room > 18),
            ("room past what is lent", number == 0 && room as usize > KEPT),
            ("a wrong plan written", number == 0 && is_wrong(plan)),
        ]
    }

    /// What a call tries of the rules on plans, on what stands before it, under
    /// the name of the call.
    fn edges(desk: &Desk, call: &Call, answer: &str) -> Vec<String> {
        let (name, edges) = match call {
            Call::EnterPlan { plan, .. } => {
                ("enter", entering_edges(&desk.log, plan, head(answer)))
            }
            Call::ListPlan { regime_end, plan, .. } => {
                ("list", listing_edges(plan, *regime_end, head(answer)))
            }
            Call::ReadPlan { bytes } => ("read", reading_edges(bytes, head(answer))),
            Call::WritePlan { plan, room, .. } => {
                ("write", writing_edges(plan, *room, head(answer)))
            }
            _ => return Vec::new(),
        };
        edges.iter().filter(|edge| edge.1).map(|edge| format!("{name}: {}", edge.0)).collect()
    }

    #[test]
    fn the_edges_of_plans_are_frequent() {
        let seen = seen(edges);
        let (entering, listing) = (2 + 17 + 18 + 20 + 8 + 9, 2 + 17 + 18);
        assert_eq!(seen.len(), entering + listing + 17 + 7, "{seen:?}");
        assert!(seen.values().all(|times| *times >= 20), "{seen:?}");
    }

    #[test]
    fn messages_are_cut_everywhere() {
        let mut generator = Generator::new(3);
        let mut lengths = BTreeSet::new();
        for (call, answer) in (0..20).flat_map(|_| generator.plan_block().calls) {
            let Call::ReadPlan { bytes } = call else { continue };
            assert!(bytes.len() >= MESSAGE || answer == "13 0 0 0 0 0 0 0");
            lengths.insert(bytes.len());
        }
        assert!((0..=MESSAGE + 1).all(|length| lengths.contains(&length)), "{lengths:?}");
    }

    /// The outages of a plan entered one by one, up to the first that fails. A
    /// minute past 2^32 - 1 stands for all that are.
    fn one_by_one(mut log: Log, plan: &Plan) -> Result<Log, Failure> {
        for i in 1..=plan.count as u64 {
            let start = plan.start as i128 + minutes_to(plan, i);
            let end = minute(start + plan.length as i128);
            let outage = Slot { start: minute(start), end, mw: plan.mw, cause: plan.cause };
            log.enter(outage).map_err(|refusal| (refusal, i))?;
        }
        Ok(log)
    }

    #[test]
    fn a_plan_is_its_outages_in_order() {
        let mut generator = Generator::new(5);
        let (mut accepted, mut refused) = (0, 0);
        let mut desk = Desk::new();
        for block in (0..60).map(|_| generator.plan_block()) {
            for (call, answer) in block.calls {
                let log = desk.log.clone();
                desk.carry_out(&call);
                let Call::EnterPlan { plan, .. } = call else { continue };
                if !log.keeps_rules() || is_wrong(&plan) {
                    assert!([(1, 0), (17, 0)].contains(&head(&answer)));
                    assert_eq!(desk.log, log);
                    continue;
                }
                let by_hand = one_by_one(log.clone(), &plan);
                assert_eq!(head(&answer), by_hand.as_ref().err().copied().unwrap_or((0, 0)));
                accepted += by_hand.is_ok() as u64;
                refused += by_hand.is_err() as u64;
                assert_eq!(desk.log, by_hand.unwrap_or(log));
            }
        }
        assert!(accepted > 1_000 && refused > 1_000, "{accepted} {refused}");
    }

    /// Rule 18.7.
    #[test]
    fn a_list_is_what_an_empty_log_takes() {
        let mut random = Random::new(8);
        let (mut accepted, mut refused) = (0, 0);
        for _ in 0..2_000 {
            let regime_end = random.fair_regime_end();
            let plan = random.some_plan(regime_end);
            let mut log = Log::empty(regime_end).unwrap();
            let entered = enter(&mut log, &plan).map(|()| log.entries().to_vec());
            accepted += entered.is_ok() as u64;
            refused += entered.is_err() as u64;
            assert_eq!(list(regime_end, &plan), entered, "{plan:?}");
        }
        assert!(accepted > 400 && refused > 400, "{accepted} {refused}");
    }
}
