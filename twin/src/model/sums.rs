//! The checksums of docs/REPLAY.md.

use super::log::{Log, Slot};
use super::year::Year;

/// Starts at 0; each number x makes it (sum x 65,599 + x) mod 4,294,967,291.
#[derive(Default)]
pub struct Sum(u64);

impl Sum {
    pub fn add(&mut self, number: u32) {
        self.0 = (self.0 * 65_599 + number as u64) % 4_294_967_291;
    }

    /// A number of 64 bits: its high 32 bits, then its low 32 bits.
    pub fn add_wide(&mut self, number: u64) {
        self.add((number >> 32) as u32);
        self.add(number as u32);
    }

    fn add_slots(&mut self, slots: &[Slot]) {
        for slot in slots {
            self.add(slot.start);
            self.add(slot.end);
            self.add(slot.mw as u32);
            self.add(slot.cause as u32);
        }
    }

    fn add_log(&mut self, log: &Log) {
        self.add_slots(&log.slots);
        self.add_wide(log.count);
        self.add(log.regime_end);
        self.add(log.closed);
    }
}

pub fn log_sum(log: &Log) -> u64 {
    let mut sum = Sum::default();
    sum.add_log(log);
    sum.0
}

/// The sum of the slots of a list.
pub fn slot_sum(slots: &[Slot]) -> u64 {
    let mut sum = Sum::default();
    sum.add_slots(slots);
    sum.0
}

pub fn year_sum(year: &Year) -> u64 {
    let mut sum = Sum::default();
    sum.add(year.number as u32);
    sum.add(year.pppi);
    sum.add(year.rate);
    sum.add(year.aic as u32);
    sum.add(year.pyc as u32);
    sum.add(year.pyf as u32);
    for line in &year.lines {
        sum.add(line.kind as u32);
        sum.add(line.currency as u32);
        sum.add_wide(line.amount as u64);
    }
    sum.add_wide(year.line_count);
    sum.add(year.mark as u32);
    sum.add_wide(year.w as u64);
    sum.add_log(&year.log);
    sum.0
}

pub fn byte_sum(bytes: &[u8]) -> u64 {
    let mut sum = Sum::default();
    bytes.iter().for_each(|byte| sum.add(*byte as u32));
    sum.0
}

#[cfg(test)]
mod tests {
    use super::*;

    #[test]
    fn sums_by_hand() {
        assert_eq!(byte_sum(&[]), 0);
        assert_eq!(byte_sum(&[1]), 1);
        assert_eq!(byte_sum(&[1, 2]), 65_601);
        assert_eq!(byte_sum(&[1, 2, 3]), (65_601 * 65_599 + 3) % 4_294_967_291);
        let mut wide = Sum::default();
        wide.add_wide(u64::MAX);
        assert_eq!(wide.0, (4 * 65_599 + 4) % 4_294_967_291);
    }

    #[test]
    fn slots_are_start_end_mw_and_cause() {
        let slot = |start, end, mw, cause| Slot { start, end, mw, cause };
        assert_eq!(slot_sum(&[slot(0, 0, 0, 0), slot(0, 0, 1, 2)]), 65_601);
        assert_eq!(slot_sum(&[slot(1, 2, 3, 4)]), byte_sum(&[1, 2, 3, 4]));
        assert_eq!(slot_sum(&[slot(0, 0, 0, 1), slot(0, 0, 0, 0)]), byte_sum(&[1, 0, 0, 0, 0]));
    }

    #[test]
    fn a_log_ends_with_its_closed_minute() {
        let open = Log::fresh();
        let mut closed = open.clone();
        closed.closed = 482_400;
        assert_eq!(log_sum(&open), 13_632_480 * 65_599 % 4_294_967_291);
        assert_eq!(log_sum(&closed), (13_632_480 * 65_599 + 482_400) % 4_294_967_291);
    }
}
