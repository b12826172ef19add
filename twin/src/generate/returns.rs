//! Blocks about reading and writing returns.

use super::Generator;
use crate::model::calendar::year_minutes;
use crate::model::log::{Slot, LAST_REGIME_END};
use crate::model::year::Line;
use crate::model::yearly_return::{field, left_out, line_value, outage_value, write, MOST_BYTES};
use crate::script::{Call, YearFields};

/// Years on both sides of where another rule says which factors are left out.
const PART_YEARS: [u8; 4] = [1, 2, 24, 25];

/// Factors at and beside those that are left out, all in range.
const PARTS: [(u16, u16); 8] = [
    (9_178, 9_178),
    (9_178, 9_177),
    (9_179, 9_178),
    (9_178, 10_000),
    (10_000, 9_178),
    (10_000, 10_000),
    (10_000, 9_999),
    (9_999, 10_000),
];

/// A return as its fields: tag and value.
type Fields = Vec<(u8, Vec<u8>)>;

fn joined(fields: &Fields) -> Vec<u8> {
    fields.iter().flat_map(|(tag, value)| field(*tag, value)).collect()
}

/// Where the fields of a tag begin and end in a row of fields.
fn places(fields: &Fields, tag: u8) -> (usize, usize) {
    let first = fields.iter().position(|field| field.0 >= tag).unwrap_or(fields.len());
    let end = fields.iter().position(|field| field.0 > tag).unwrap_or(fields.len());
    (first, end)
}

impl Generator {
    /// Returns read, written, filed again and printed.
    pub fn return_work(&mut self) {
        for _ in 0..6 {
            let bytes = self.some_return();
            let k = self.any_k();
            self.call(Call::Read { k, bytes: bytes.clone() });
            let room = self.some_room(k);
            self.call(Call::Write { k, room });
            let room = self.some_room(k);
            self.call(Call::Refile { room, bytes: bytes.clone() });
            self.call(Call::Print { bytes });
            if self.random.one_in(3) {
                self.change_and_write(k);
            }
            if self.random.one_in(2) {
                self.kept_work(k);
            }
            if self.random.one_in(4) {
                self.call(Call::Revenue { k });
                self.call(Call::TakeLog { k });
                self.log_call();
                self.log_call();
                self.call(Call::Levels { k });
            }
        }
        for _ in 0..3 {
            self.part_year_work();
        }
        for _ in 0..10 {
            let bytes = self.some_return();
            match self.random.below(3) {
                0 => {
                    let k = self.any_k();
                    self.call(Call::Read { k, bytes });
                }
                1 => {
                    let room = self.random.pick(&[0, 22, 23, 24, 100, 6_077, 6_477, 8_192]);
                    self.call(Call::Refile { room, bytes });
                }
                _ => self.call(Call::Print { bytes }),
            }
        }
    }

    /// The return of a year with factors at an edge, their field there, cut or
    /// left out, and in its stead another field or the end; then such a year
    /// written.
    fn part_year_work(&mut self) {
        let number = self.random.pick(&PART_YEARS);
        let (mut pyc, pyf) = self.random.pick(&PARTS);
        if self.random.one_in(9) {
            pyc = 10_001;
        }
        let mut fields = self.fields_of(number, 1, &[]);
        fields.retain(|field| field.0 != 5);
        if self.random.one_in(2) {
            fields.truncate(4);
        }
        let mut bytes = joined(&fields);
        if !self.random.one_in(3) {
            let factors = field(5, &[pyc.to_be_bytes(), pyf.to_be_bytes()].concat());
            let kept = if self.random.one_in(6) { 3 } else { factors.len() };
            bytes.splice(23..23, factors[..kept].iter().copied());
        }
        let k = self.any_k();
        self.call(Call::Read { k, bytes: bytes.clone() });
        let room = self.random.pick(&[22, 23, 29, 30, 100]);
        self.call(Call::Refile { room, bytes: bytes.clone() });
        self.call(Call::Print { bytes });
        let fields = YearFields { pyc, pyf, ..self.random.fair_fields(number, 0) };
        self.put_year(k, fields, &[]);
        for _ in 0..2 {
            let room = self.some_room(k);
            self.call(Call::Write { k, room });
        }
    }

    /// A return that is kept in parts, some of them longer than a field with
    /// its head, and then read and filed again.
    fn kept_work(&mut self, k: u8) {
        let mut bytes = self.some_return();
        if self.random.one_in(60) {
            let more = self.random.pick(&[65_535, 66_000, 131_072, 262_144]);
            bytes.resize(bytes.len() + more, self.random.pick(&[0, 7, 255]));
        }
        self.keep_all(&bytes);
        self.call(Call::ReadKept { k });
        let room = match self.random.below(40) {
            0 => self.random.pick(&[65_536, 100_000, 262_144, 262_145, u32::MAX]),
            _ => self.some_room(k) as u32,
        };
        self.call(Call::RefileKept { room });
    }

    /// Keeps these bytes and no others, in parts.
    pub fn keep_all(&mut self, bytes: &[u8]) {
        self.call(Call::Forget);
        let mut left = bytes;
        while !left.is_empty() {
            let most = left.len().min(65_535) as u64;
            let part = 1 + self.random.below(most) as usize;
            self.call(Call::Keep { bytes: left[..part].to_vec() });
            left = &left[part..];
        }
    }

    /// A year that was read, changed in one thing and written.
    fn change_and_write(&mut self, k: u8) {
        let year = self.desk.years[k as usize].clone();
        let mut fields = YearFields::of(&year);
        match self.random.below(7) {
            0 => fields.number = fields.number % 25 + 1,
            1 => self.random.spoil_fields(&mut fields),
            2 => {
                let regime_end = self.random.fair_regime_end();
                let outages = self.random.outages(2, 0, 12_579_841);
                self.put_log(&outages, regime_end);
                self.call(Call::YearLog { k });
            }
            3 => {
                self.call(Call::TakeLog { k });
                let outage = self.random.pick(&[
                    Slot { start: 0, end: 0, mw: 1, cause: 1 },
                    Slot { start: 0, end: 1, mw: 1, cause: 1 },
                    Slot { start: 9, end: 8, mw: 1, cause: 1 },
                ]);
                let slot = self.random.pick(&[0, 399, 1]);
                self.call(Call::set_slot(slot, outage));
                self.call(Call::YearLog { k });
            }
            4 => {
                self.call(Call::TakeLog { k });
                let count = self.desk.log.count;
                let regime_end = self.random.pick(&[13_632_479, 13_632_481, 12_579_840]);
                self.call(Call::SetCount { count, regime_end });
                self.call(Call::YearLog { k });
                if self.random.one_in(2) {
                    self.random.spoil_fields(&mut fields);
                }
            }
            5 => {
                self.call(Call::TakeLog { k });
                self.close_and_write(k);
            }
            _ => {
                (fields.pyc, fields.pyf) = self.random.pick(&PARTS);
                fields.mark = !fields.mark;
                fields.w = self.random.fair_amount();
            }
        }
        self.call(Call::SetYear { k, fields });
        for _ in 0..2 {
            let room = self.some_room(k);
            self.call(Call::Write { k, room });
        }
    }

    /// Room for year k.
    pub fn some_room(&mut self, k: u8) -> u16 {
        let length = match write(&self.desk.years[k as usize], MOST_BYTES) {
            Ok(bytes) => bytes.len() as u16,
            Err(_) => self.random.below(100) as u16,
        };
        self.random.room_for(length as u32) as u16
    }

    /// A good return of a year with these outages and so many lines.
    pub fn return_of(&mut self, number: u8, lines: usize, outages: &[Slot]) -> Vec<u8> {
        joined(&self.fields_of(number, lines, outages))
    }

    /// The same without lines, and with a field of tag 07 more behind them.
    pub fn return_with(&mut self, number: u8, outages: &[Slot], value: Vec<u8>) -> Vec<u8> {
        let mut fields = self.fields_of(number, 0, outages);
        let (_, end) = places(&fields, 7);
        fields.insert(end, (7, value));
        joined(&fields)
    }

    fn fields_of(&mut self, number: u8, lines: usize, outages: &[Slot]) -> Fields {
        let year = self.random.fair_fields(number, lines);
        let mut fields: Fields = vec![
            (1, vec![number]),
            (2, year.pppi.to_be_bytes().to_vec()),
            (3, year.rate.to_be_bytes().to_vec()),
            (4, year.aic.to_be_bytes().to_vec()),
        ];
        if left_out(number) != Some((year.pyc, year.pyf)) {
            fields.push((5, [year.pyc.to_be_bytes(), year.pyf.to_be_bytes()].concat()));
        }
        for line in self.some_lines(lines, year.rate) {
            fields.push((6, line_value(&line)));
        }
        for outage in outages {
            fields.push((7, outage_value(outage)));
        }
        if year.mark {
            fields.push((8, vec![1]));
        }
        if year.w != 0 {
            fields.push((9, year.w.to_be_bytes().to_vec()));
        }
        fields
    }

    fn good_fields(&mut self) -> Fields {
        let number = self.random.fair_number();
        let (first, end) = year_minutes(number, LAST_REGIME_END).unwrap();
        let (lines, count) = match self.random.below(24) {
            0 => (64, 400),
            1 => (64, 2),
            2 => (3, 400),
            3 => (63, 399),
            4..=7 => (0, 0),
            _ => (self.random.below(6) as usize, self.random.below(8) as usize),
        };
        let first = if self.random.one_in(4) { end - 1_000 } else { first };
        let mut outages = self.random.outages(count, first, end);
        if let Some(last) = outages.last_mut() {
            match self.random.below(5) {
                0 => last.end = (end as u32 + 120).min(LAST_REGIME_END),
                1 => last.end = LAST_REGIME_END,
                2 => {
                    (last.start, last.end) = (end as u32 - 1, (end as u32 + 1).min(LAST_REGIME_END))
                }
                _ => (),
            }
        }
        if count == 1 && self.random.one_in(2) {
            outages[0].start = first as u32;
        }
        self.fields_of(number, lines, &outages)
    }

    /// A return, good or damaged.
    pub fn some_return(&mut self) -> Vec<u8> {
        let mut fields = self.good_fields();
        match self.random.below(12) {
            0..=5 => joined(&fields),
            6..=8 => {
                self.damage_value(&mut fields);
                joined(&fields)
            }
            9 => {
                self.damage_order(&mut fields);
                joined(&fields)
            }
            _ => {
                let bytes = joined(&fields);
                self.damage_bytes(bytes)
            }
        }
    }

    /// Puts one field's value at or past a limit.
    fn damage_value(&mut self, fields: &mut Fields) {
        let tag = self.random.between(1, 9) as u8;
        let value = match tag {
            1 => vec![self.random.pick(&[0, 26, 25, 1, 255])],
            2 => {
                let limits = [5_000, 50_000];
                let pppi = if self.random.one_in(3) {
                    self.random.pick(&limits)
                } else {
                    self.random.bad_pppi()
                };
                pppi.to_be_bytes().to_vec()
            }
            3 => {
                let limits = [1, 200_000];
                let rate = if self.random.one_in(3) {
                    self.random.pick(&limits)
                } else {
                    self.random.bad_rate()
                };
                rate.to_be_bytes().to_vec()
            }
            4 => self.random.pick(&[20_000u16, 20_001, 65_535, 0]).to_be_bytes().to_vec(),
            5 => {
                let both = self.random.pick(&[
                    [10_000u16, 10_000],
                    [9_178, 9_178],
                    [10_001, 10_000],
                    [10_000, 10_001],
                    [10_000, 9_999],
                    [0, 0],
                    [65_535, 1],
                ]);
                both.iter().flat_map(|factor| factor.to_be_bytes()).collect()
            }
            6 => line_value(&self.random.bad_line(100_000)),
            7 => return self.damage_outages(fields),
            8 => self.random.pick(&[vec![0], vec![2], vec![1, 1], vec![], vec![255]]),
            _ => {
                let w = match self.random.below(4) {
                    0 => 0,
                    1 => self.random.fair_amount(),
                    _ => self.random.bad_amount(),
                };
                w.to_be_bytes().to_vec()
            }
        };
        let (first, end) = places(fields, tag);
        match tag {
            6 => {
                let place = self.random.between(first as i128, end as i128) as usize;
                fields.insert(place, (6, value));
            }
            _ if first == end => fields.insert(first, (tag, value)),
            _ => fields[first].1 = value,
        }
    }

    fn damage_outages(&mut self, fields: &mut Fields) {
        let number = fields[0].1[0];
        let (first, end) = year_minutes(number, LAST_REGIME_END).unwrap_or((0, 1));
        let (from, to) = places(fields, 7);
        let (first, end) = (first as u32, end as u32);
        let outage = |start: u32, end: u32, mw: u16| Slot { start, end, mw, cause: 1 };
        let candidates = [
            outage(first.saturating_sub(1), first + 1, 5),
            outage(end, end + 1, 5),
            outage(end - 1, end + 1, 5),
            outage(end - 1, LAST_REGIME_END, 1_000),
            outage(end - 1, LAST_REGIME_END + 1, 5),
            outage(end - 1, end, 0),
            outage(end - 1, end, 1_001),
            outage(end - 1, end - 1, 1),
            outage(end - 1, end - 2, 1),
            outage(first, first + 1, 1),
            outage(u32::MAX, u32::MAX, 1),
            outage(end - 1, u32::MAX, 1),
        ];
        let value = outage_value(&self.random.pick(&candidates));
        match self.random.below(4) {
            0 if to > from + 1 => {
                let place = self.random.between(from as i128, to as i128 - 2) as usize;
                fields.swap(place, place + 1);
            }
            1 if to > from => {
                let place = self.random.between(from as i128, to as i128 - 1) as usize;
                fields[place].1 = value;
            }
            2 => fields.insert(from, (7, value)),
            _ => fields.insert(to, (7, value)),
        }
    }

    /// Fields doubled, left out, exchanged, unknown or one too many.
    fn damage_order(&mut self, fields: &mut Fields) {
        let count = fields.len() as u64;
        let place = self.random.below(count) as usize;
        let other = self.random.below(count) as usize;
        match self.random.below(7) {
            0 => fields.insert(place, fields[place].clone()),
            1 => {
                fields.remove(place);
            }
            2 => fields.swap(place, other),
            3 => {
                let unknown = self.random.pick(&[0, 10, 11, 255, 128]);
                fields.insert(place, (unknown, vec![]));
            }
            4 => {
                let value = line_value(&Line { kind: 1, currency: 0, amount: 1 });
                let (_, end) = places(fields, 6);
                let wanted = self.random.pick(&[1, 64, 65]);
                (0..wanted).for_each(|_| fields.insert(end, (6, value.clone())));
            }
            5 => {
                fields.remove(self.random.below(4) as usize);
            }
            _ => {
                // One field after the longest row of outages.
                let first = year_minutes(fields[0].1[0], LAST_REGIME_END).unwrap().0 as u32;
                let (from, to) = places(fields, 7);
                let count = self.random.pick(&[400, 401]);
                let outage =
                    |i: u32| Slot { start: first + i, end: first + i + 1, mw: 1, cause: 1 };
                fields.splice(from..to, (0..count).map(|i| (7, outage_value(&outage(i)))));
            }
        }
    }

    /// Bytes changed, cut, lengths changed, bytes too many.
    pub fn damage_bytes(&mut self, mut bytes: Vec<u8>) -> Vec<u8> {
        let length = bytes.len() as u64;
        match self.random.below(9) {
            0 | 1 => {
                let place = self.random.below(length) as usize;
                bytes[place] ^= 1 << self.random.below(8);
            }
            2 => {
                let place = self.random.below(length.min(30)) as usize;
                bytes[place] = self.random.next() as u8;
            }
            3 | 4 => bytes.truncate(self.random.below(length) as usize),
            5 => {
                // The length of one of the first fields.
                let place = self.random.pick(&[1, 2, 5, 6, 12, 13, 19, 20]);
                bytes[place] = bytes[place].wrapping_add(self.random.pick(&[1, 255, 128]));
            }
            6 => {
                let more = self.random.between(1, 4);
                bytes.extend((0..more).map(|_| self.random.next() as u8 % 12));
            }
            7 => bytes.resize(self.random.pick(&[8_191, 8_192, 8_193, 9_000]), 0),
            _ => {
                let cut = self.random.below(length.min(24)) as usize;
                bytes.truncate(cut);
            }
        }
        bytes
    }
}

#[cfg(test)]
mod tests {
    use super::*;
    use crate::desk::Desk;
    use crate::generate::tests::seen_in;
    use crate::model::yearly_return::field_at;

    /// Of a return that is read: its year, its factors where they are there, and
    /// what comes of it. Of one that is written: the same, by its year.
    fn factors_tried(desk: &Desk, call: &Call, answer: &str) -> Vec<(u8, Option<u16>, String)> {
        let number = answer.split(' ').next().unwrap().to_string();
        match call {
            Call::Read { bytes, .. } if bytes.len() >= 23 && bytes.len() < 100 => {
                let five = match field_at(bytes, 23) {
                    Some((5, value, _)) if value.len() == 4 => {
                        let (pyc, pyf) = value.split_at(2);
                        if pyc != pyf {
                            return vec![];
                        }
                        Some(u16::from_be_bytes([pyc[0], pyc[1]]))
                    }
                    _ => None,
                };
                vec![(bytes[3], five, format!("read {number}"))]
            }
            Call::Write { k, .. } => {
                let year = &desk.years[*k as usize];
                if number != "0" || year.line_count > 0 || year.log.count > 0 {
                    return vec![];
                }
                let length: usize = answer.split(' ').nth(1).unwrap().parse().unwrap();
                let rest = 4 * year.mark as usize + 11 * (year.w != 0) as usize;
                let both = (year.pyc == year.pyf).then_some(year.pyc);
                vec![(year.number, both, format!("wrote {}", length - rest))]
            }
            _ => vec![],
        }
    }

    #[test]
    fn factors_at_the_edges() {
        let seen = seen_in(300, Generator::return_block, factors_tried);
        let often = |number: u8, five: Option<u16>, what: &str| {
            let times = seen.get(&(number, five, what.to_string())).copied().unwrap_or(0);
            assert!(times >= 10, "year {number}, {five:?}, {what}: {times} times");
        };
        for (number, out, other) in [(1, 9_178, 10_000), (2, 10_000, 9_178), (24, 10_000, 9_178)] {
            often(number, None, "read 0");
            often(number, Some(out), "read 13");
            often(number, Some(other), "read 0");
            often(number, Some(out), "wrote 23");
            often(number, Some(other), "wrote 30");
        }
        for both in [9_178, 10_000] {
            often(25, Some(both), "read 0");
            often(25, Some(both), "wrote 30");
        }
        often(25, None, "read 13");
        assert!(!seen.contains_key(&(25, None, "read 0".to_string())));
    }
}
