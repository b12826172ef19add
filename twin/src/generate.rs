//! Scripts made from a seed, biased to edges, in blocks that stand alone.

mod anything;
mod assessments;
mod closings;
mod fillings;
mod levels;
mod logs;
mod overlaps;
mod plans;
mod random;
mod records;
mod returns;
mod settlements;
mod sheets;
mod values;
mod workbooks;

use crate::desk::Desk;
use crate::model::book::Book;
use crate::model::log::LAST_REGIME_END;
use crate::script::Call;
use random::Random;

/// Calls that belong together, with the model's answers. A block first sets
/// all that it uses, so that it can be replayed alone.
pub struct Block {
    pub name: &'static str,
    pub calls: Vec<(Call, String)>,
}

pub struct Generator {
    random: Random,
    desk: Desk,
    calls: Vec<(Call, String)>,
}

impl Generator {
    pub fn new(seed: u64) -> Generator {
        Generator { random: Random::new(seed), desk: Desk::new(), calls: Vec::new() }
    }

    /// Carries a call out on the model and keeps it with its answer.
    fn call(&mut self, call: Call) {
        let answer = self.desk.carry_out(&call);
        self.calls.push((call, answer));
    }

    pub fn next_block(&mut self) -> Block {
        match self.random.below(41) {
            0..=3 => self.block("log", Generator::log_work),
            4 | 5 => self.block("full log", Generator::full_log_work),
            6 | 7 => self.block("broken log", Generator::broken_log_work),
            8 | 9 => self.block("target", Generator::target_work),
            10 | 11 => self.block("book", Generator::book_work),
            12 | 13 => self.block("years", Generator::year_work),
            14..=16 => self.block("assessment", Generator::assessment_work),
            17 | 18 => self.block("period", Generator::period_work),
            19 => self.block("settlement", Generator::settlement_work),
            20..=22 => self.return_block(),
            23..=25 => self.sheet_block(),
            26..=28 => self.block("closed years", Generator::closed_work),
            29..=31 => self.plan_block(),
            32..=34 => self.workbook_block(),
            35 => self.block("levels", Generator::level_work),
            36..=39 => self.block("overlaps", Generator::overlap_work),
            _ => self.block("anything", Generator::any_work),
        }
    }

    pub fn return_block(&mut self) -> Block {
        self.block("returns", Generator::return_work)
    }

    pub fn sheet_block(&mut self) -> Block {
        self.block("day sheets", Generator::sheet_work)
    }

    fn plan_block(&mut self) -> Block {
        self.block("plans", Generator::plan_work)
    }

    pub fn workbook_block(&mut self) -> Block {
        self.block("workbooks", Generator::workbook_work)
    }

    fn block(&mut self, name: &'static str, work: fn(&mut Generator)) -> Block {
        self.start_afresh();
        work(self);
        if self.random.one_in(4) {
            self.show();
        }
        Block { name, calls: std::mem::take(&mut self.calls) }
    }

    /// Sets all that stands, whatever stood before.
    fn start_afresh(&mut self) {
        self.call(Call::Empty { regime_end: LAST_REGIME_END });
        self.call(Call::SetBook { book: Book::fresh() });
        for k in 0..5 {
            self.call(Call::FreshYear { k });
        }
        self.call(Call::Forget);
    }

    /// Shows all that stands.
    fn show(&mut self) {
        let k = self.any_k();
        let room = self.some_room(k);
        self.call(Call::ShowLog);
        self.call(Call::ShowYear { k });
        self.call(Call::ShowBook);
        self.call(Call::ShowWrite { k, room });
        let room = self.sheet_room().min(1_000) as u16;
        self.call(Call::ShowSheet { room });
    }

    fn any_k(&mut self) -> u8 {
        self.random.below(5) as u8
    }

    /// Bytes that are no field of a script, with a good field after them.
    pub fn malformed_field(&mut self) -> Vec<u8> {
        let random = &mut self.random;
        let k_tags = [8, 9, 21, 37, 38, 39, 49];
        let mut field = match random.below(12) {
            0 => vec![random.pick(&[0, 29, 31, 43, 47, 53, 63, 74, 255]), 0, 0],
            1 => vec![random.pick(&k_tags), 0, 1, random.pick(&[5, 255])],
            2 => vec![random.pick(&[18, 51]), 0, 3, 5, 0, 0],
            3 => vec![random.pick(&[17, 19, 23, 64, 65, 67, 68, 69, 70, 71, 72]), 0, 0],
            4 => vec![17, 0, 2, 5, 1],
            5 => {
                let slot = random.pick(&[400u16, 401, 65_535]).to_be_bytes();
                let rest = random.pick(&[10, 11]);
                [&[32, 0, 2 + rest][..], &slot, &vec![0; rest as usize]].concat()
            }
            6 => [&[36, 0, 12, 0, random.pick(&[64, 255])][..], &[0; 10]].concat(),
            7 => {
                let mut set_year = vec![35, 0, 33];
                set_year.extend([0; 33]);
                set_year[3 + 16] = random.pick(&[2, 255]);
                set_year
            }
            8 => {
                let length = random.pick(&[1, 17, 40]);
                [&[0, 0, length][..], &vec![0; length as usize]].concat()
            }
            9 => {
                let mut read_cells = vec![71, 0, 252];
                read_cells.extend([0; 252]);
                read_cells[3 + 9 * random.below(28) as usize] = random.pick(&[3, 255]);
                read_cells
            }
            10 => [&[72, 0, 13, 0, 0, 0, 0, random.pick(&[3, 255])][..], &[0; 8]].concat(),
            _ => return self.wrong_length(),
        };
        field.extend(Call::ShowBook.encode());
        field
    }

    /// A field whose length is not that of its tag, or a field that is cut.
    fn wrong_length(&mut self) -> Vec<u8> {
        let mut block = self.block("anything", Generator::any_work);
        block.calls.retain(|(call, _)| ![17, 19, 20, 23, 40, 66, 73].contains(&call.tag()));
        let (mut call, _) = self.random.pick(&block.calls);
        let mut field = call.encode();
        if self.random.one_in(2) {
            let most = field.len() as u64 - 1;
            field.truncate(1 + self.random.below(most) as usize);
            return field;
        }
        let length = field.len() - 3;
        // A cause that may be left out makes two lengths right.
        let (least, most) = match call.spells() {
            Some(spelled) => (length - *spelled as usize, length + !*spelled as usize),
            None => (length, length),
        };
        let wrong = if least > 0 && self.random.one_in(2) { least - 1 } else { most + 1 };
        field[1..3].copy_from_slice(&(wrong as u16).to_be_bytes());
        field.resize(3 + wrong, 0);
        field.extend(Call::ShowBook.encode());
        field
    }
}

#[cfg(test)]
mod tests {
    use super::*;
    use crate::model::log::{Log, Slot};
    use crate::script::{next_field, Field};
    use std::collections::BTreeMap;

    /// How often each edge that calls try is tried, in many blocks. Which ones a
    /// call tries is told from what stands before it and its answer.
    pub fn seen<Edge: Ord>(edges: fn(&Desk, &Call, &str) -> Vec<Edge>) -> BTreeMap<Edge, u64> {
        seen_in(900, Generator::next_block, edges)
    }

    /// The same in so many blocks of one kind.
    pub fn seen_in<Edge: Ord>(
        count: usize,
        block: fn(&mut Generator) -> Block,
        edges: fn(&Desk, &Call, &str) -> Vec<Edge>,
    ) -> BTreeMap<Edge, u64> {
        let mut generator = Generator::new(1);
        let mut seen = BTreeMap::new();
        for _ in 0..count {
            let mut desk = Desk::new();
            for (call, answer) in block(&mut generator).calls {
                for edge in edges(&desk, &call, &answer) {
                    *seen.entry(edge).or_default() += 1;
                }
                desk.carry_out(&call);
            }
        }
        seen
    }

    /// What a quotient is a half of, if it is one.
    pub fn half_of(numerator: i128, denominator: i128) -> Option<&'static str> {
        let (pounds, rest) = (numerator.abs() / denominator, numerator.abs() % denominator);
        (2 * rest == denominator).then_some(match (numerator > 0, pounds % 2 == 0) {
            (true, true) => "a half and an even number",
            (true, false) => "a half and an odd number",
            (false, true) => "a half and an even number, below zero",
            (false, false) => "a half and an odd number, below zero",
        })
    }

    #[test]
    fn a_block_stands_alone() {
        let mut generator = Generator::new(11);
        for _ in 0..60 {
            let block = generator.next_block();
            let mut desk = Desk::new();
            for (call, answer) in &block.calls {
                assert_eq!(desk.carry_out(call), *answer, "in a block of {}", block.name);
            }
        }
    }

    #[test]
    fn lost_energy_minute_by_minute() {
        let mut generator = Generator::new(4);
        let mut short_stretches = 0;
        for _ in 0..100 {
            let mut desk = Desk::new();
            for (call, answer) in generator.next_block().calls {
                desk.carry_out(&call);
                let Call::Lost { a, b } = call else { continue };
                if answer.starts_with("0 ") && b - a <= 3_000 {
                    let slow = desk.log.lost_by_minutes(a as i128, b as i128);
                    assert_eq!(answer, format!("0 {slow}"));
                    short_stretches += (slow > 0) as u64;
                }
            }
        }
        assert!(short_stretches > 20);
    }

    /// The entries that start before a minute, of a log that keeps the rules.
    fn old_entries(log: &Log, closed: u32) -> Vec<Slot> {
        log.entries().iter().filter(|entry| entry.start < closed).copied().collect()
    }

    #[test]
    fn what_is_closed_stays() {
        let mut generator = Generator::new(9);
        let (mut accepted, mut closed_before) = (0, 0);
        for _ in 0..300 {
            let mut desk = Desk::new();
            for (call, answer) in generator.next_block().calls {
                let log = desk.log.clone();
                desk.carry_out(&call);
                if ![2, 3, 28, 65].contains(&call.tag()) || !log.keeps_rules() {
                    continue;
                }
                assert!(desk.log.keeps_rules() && desk.log.closed >= log.closed);
                let (before, after) =
                    (old_entries(&log, log.closed), old_entries(&desk.log, log.closed));
                assert_eq!(before, after, "{call:?}");
                accepted += (answer.starts_with("0 ") && log.closed > 0) as u64;
                closed_before += !before.is_empty() as u64;
            }
        }
        assert!(accepted > 100 && closed_before > 100);
    }

    #[test]
    fn the_same_seed_makes_the_same_script() {
        let calls = |seed| {
            let mut generator = Generator::new(seed);
            (0..10).flat_map(|_| generator.next_block().calls).collect::<Vec<_>>()
        };
        assert!(calls(5) == calls(5));
        assert!(calls(5) != calls(6));
    }

    #[test]
    fn malformed_fields_are_malformed() {
        let mut generator = Generator::new(2);
        for _ in 0..300 {
            let bytes = generator.malformed_field();
            let (field, _) = next_field(&mut &bytes[..]).unwrap();
            assert!(matches!(field, Field::Malformed), "{bytes:?}");
        }
    }

    /// Every call is accepted often, and refused often with every number that
    /// it can give (rule 12.4).
    #[test]
    fn every_refusal_is_frequent() {
        let expected: [(u8, &[&str]); 37] = [
            (1, &["0", "8"]),
            (2, &["0", "1", "2", "3", "16", "19", "4", "5"]),
            (3, &["0", "1", "16", "6"]),
            (4, &["0", "1", "7"]),
            (5, &["0", "9"]),
            (6, &["0", "8", "1", "9"]),
            (7, &["0", "8", "1", "9"]),
            (8, &["0", "8", "1", "9", "11"]),
            (9, &["0", "9", "11"]),
            (10, &["0", "9", "11", "10"]),
            (11, &["0", "8", "1", "9", "11", "10"]),
            (12, &["0", "12"]),
            (13, &["0", "12"]),
            (14, &["0", "12", "11"]),
            (15, &["0", "12", "11"]),
            (16, &["0", "12", "11"]),
            (17, &["0", "13"]),
            (18, &["0", "1", "9", "14"]),
            (19, &["0", "13", "14"]),
            (21, &["0", "13"]),
            (22, &["0", "13", "14"]),
            (23, &["0", "8", "13", "15", "2", "3", "4", "5"]),
            (24, &["0", "8", "13", "15", "2", "3", "4", "5"]),
            (25, &["0", "1", "20", "14"]),
            (26, &["0", "7"]),
            (27, &["0", "7"]),
            (28, &["0", "1", "9"]),
            (64, &["0", "8", "17", "2", "3"]),
            (65, &["0", "1", "17", "2", "3", "16", "19", "4", "5"]),
            (66, &["0", "13"]),
            (67, &["0", "14"]),
            (68, &["0", "12"]),
            (69, &["0", "12"]),
            (70, &["0", "9", "12", "11"]),
            (71, &["0", "18"]),
            (72, &["0", "18"]),
            (73, &["0", "13", "4", "5", "11", "10", "12"]),
        ];
        let seen = seen(|_, call, answer| {
            let number = answer.split(' ').next().unwrap().to_string();
            vec![(call.tag(), number)]
        });
        for (tag, numbers) in expected {
            for number in numbers {
                let times = seen.get(&(tag, number.to_string())).copied().unwrap_or(0);
                assert!(times >= 20, "tag {tag}, number {number}: {times} times");
            }
            let of_tag = seen.keys().filter(|key| key.0 == tag).count();
            assert_eq!(of_tag, numbers.len(), "tag {tag} gives other numbers too");
        }
    }
}
