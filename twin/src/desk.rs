//! What stands, and the calls carried out on it (docs/REPLAY.md, "What
//! stands" and "Calls").

use std::fmt::Write as _;
use std::io::{self, BufRead, Write};

use crate::model::assessment::{assess, assess_period, Assessment};
use crate::model::book::Book;
use crate::model::calendar::year_minutes;
use crate::model::dates::{minute_text, outage_text};
use crate::model::daysheet;
use crate::model::filling::fill;
use crate::model::growth::growth;
use crate::model::levels::{availability, levels, target_met};
use crate::model::log::{slotted, Log, Slot};
use crate::model::plan::{self, Failure, Plan};
use crate::model::revenue::assessed_revenue;
use crate::model::settlement::{gap, payment, reconcile, settle};
use crate::model::sheet;
use crate::model::sums::{byte_sum, log_sum, slot_sum, year_sum};
use crate::model::workbook::{
    export, gap_of_medians, print_cell, read_cells, Cell, WorkbookPeriod, AMOUNTS, CELLS,
};
use crate::model::year::Year;
use crate::model::yearly_return::{read, write_into};
use crate::model::Refusal;
use crate::script::{next_field, Call, CellBits, Field, KEPT};

#[derive(Clone)]
pub struct Desk {
    pub log: Log,
    pub book: Book,
    pub years: [Year; 5],
    pub kept: Vec<u8>,
}

/// Numbers in a row, a blank between them.
fn row(numbers: impl IntoIterator<Item = i128>) -> String {
    let mut text = String::new();
    for number in numbers {
        if !text.is_empty() {
            text.push(' ');
        }
        write!(text, "{number}").unwrap();
    }
    text
}

/// The refusal's number and the figures, which are 0 beside a refusal.
fn figures<const N: usize>(answer: Result<[i128; N], Refusal>) -> String {
    let (number, figures) = match answer {
        Ok(figures) => (0, figures),
        Err(refusal) => (refusal, [0; N]),
    };
    row([number as i128].into_iter().chain(figures))
}

fn assessment_figures(answer: Result<Assessment, Refusal>) -> String {
    figures(answer.map(|x| [x.a, x.c, x.f, x.w, x.t, x.adjustment]))
}

/// The number of a call without figures.
fn number_of(answer: Result<(), Refusal>) -> Refusal {
    answer.err().unwrap_or(0)
}

/// The buffer that is lent: byte i is 255 less i mod 251.
fn lent_buffer(room: usize) -> Vec<u8> {
    (0..room.min(KEPT)).map(|i| (255 - i % 251) as u8).collect()
}

/// The answer of a writing into a lent buffer: the number, the length and the
/// buffer's sum.
fn written_sum(room: usize, write: impl FnOnce(&mut [u8]) -> (Refusal, usize)) -> String {
    let mut buffer = lent_buffer(room);
    let (number, length) = write(&mut buffer);
    row([number as i128, length as i128, byte_sum(&buffer) as i128])
}

/// The same with every byte of the buffer in the place of its sum.
fn written_bytes(room: u16, write: impl FnOnce(&mut [u8]) -> (Refusal, usize)) -> String {
    let mut buffer = lent_buffer(room as usize);
    let (number, length) = write(&mut buffer);
    let head = [number as i128, length as i128];
    row(head.into_iter().chain(buffer.iter().map(|byte| *byte as i128)))
}

/// The answer of a return read and written again.
fn refile_answer(bytes: &[u8], room: usize) -> String {
    written_sum(room, |buffer| match read(bytes) {
        Ok(year) => write_into(&year, buffer),
        Err(_) => (13, 0),
    })
}

/// The refusal's number and that of the outage that fails, both 0 where none
/// does.
fn failure_numbers(failure: Option<Failure>) -> [i128; 2] {
    let (number, outage) = failure.unwrap_or((0, 0));
    [number as i128, outage as i128]
}

/// The answer of a plan that is listed; a refused list has no outage.
fn list_answer(listed: Result<Vec<Slot>, Failure>) -> String {
    let [number, outage] = failure_numbers(listed.as_ref().err().copied());
    let outages = listed.unwrap_or_default();
    let sum = slot_sum(&slotted(&outages));
    row([number, outage, outages.len() as i128, sum as i128])
}

/// The answer of a plan that is read: the number, the place and the plan, which
/// is of zeros beside a refusal.
fn plan_answer(read: Result<Plan, usize>) -> String {
    let (number, place) = read.err().map_or((0, 0), |place| (13, place as i128));
    let plan = read.unwrap_or_default();
    let (start, length) = (plan.start as i128, plan.length as i128);
    let (step, count, mw) = (plan.step as i128, plan.count as i128, plan.mw as i128);
    row([number, place, start, length, step, count, mw, plan.cause as i128])
}

/// The answer of a workbook's period that is made: the bits of its floats.
fn period_answer(made: Result<WorkbookPeriod, Refusal>) -> String {
    figures(made.map(|period| period.bits().map(|bits| bits as i128)))
}

/// The answer of a workbook: the kind and the bits of each of its cells, which
/// are all empty beside a refusal.
fn cells_answer(answer: Result<[Cell; CELLS], Refusal>) -> String {
    let number = number_of(answer.as_ref().map(|_| ()).map_err(|refusal| *refusal));
    let cells = answer.unwrap_or([Cell::Empty; CELLS]);
    let numbers = cells.iter().map(CellBits::of).flat_map(|cell| [cell.kind as u64, cell.bits]);
    row([number as i128].into_iter().chain(numbers.map(|number| number as i128)))
}

/// The answer of cells that are read: the number, the index of the first bad
/// cell, the amounts and the period.
fn read_answer(read: Result<([i64; AMOUNTS], WorkbookPeriod), usize>) -> String {
    let (number, index) = read.err().map_or((0, 0), |index| (18, index as i128));
    let (amounts, period) = read.unwrap_or_default();
    let amounts = amounts.into_iter().map(|amount| amount as i128);
    let bits = period.bits().into_iter().map(|bits| bits as i128);
    row([number, index].into_iter().chain(amounts).chain(bits))
}

/// The answer of a text, which is empty beside a refusal.
fn text_answer(answer: Result<String, Refusal>) -> String {
    figures(answer.map(|text| [text.len() as i128, byte_sum(text.as_bytes()) as i128]))
}

fn log_numbers(log: &Log) -> Vec<i128> {
    let mut numbers = vec![log.count as i128, log.regime_end as i128, log.closed as i128];
    for slot in &log.slots {
        let (start, end) = (slot.start as i128, slot.end as i128);
        numbers.extend([start, end, slot.mw as i128, slot.cause as i128]);
    }
    numbers
}

fn year_numbers(year: &Year) -> Vec<i128> {
    let mut numbers = vec![
        year.number as i128,
        year.pppi as i128,
        year.rate as i128,
        year.aic as i128,
        year.pyc as i128,
        year.pyf as i128,
        year.line_count as i128,
        year.mark as i128,
        year.w as i128,
    ];
    for line in &year.lines {
        numbers.extend([line.kind as i128, line.currency as i128, line.amount as i128]);
    }
    numbers.extend(log_numbers(&year.log));
    numbers
}

fn book_numbers(book: &Book) -> [i128; 10] {
    [
        book.regime_end as i128,
        book.target_1 as i128,
        book.target_25 as i128,
        book.pcl as i128,
        book.pfl as i128,
        book.pcac as i128,
        book.pcaf as i128,
        book.orac as i128,
        book.oraf as i128,
        book.miss_factor as i128,
    ]
}

impl Desk {
    pub fn new() -> Desk {
        Desk {
            log: Log::fresh(),
            book: Book::fresh(),
            years: std::array::from_fn(|_| Year::fresh()),
            kept: Vec::new(),
        }
    }

    fn log_answer(&self, number: Refusal) -> String {
        row([number as i128, self.log.count as i128, log_sum(&self.log) as i128])
    }

    /// Reads a return into a year, and gives the answer.
    fn read_into(&mut self, k: u8, bytes: &[u8]) -> String {
        let (number, place, year) = match read(bytes) {
            Ok(year) => (0, 0, year),
            Err(place) => (13, place as i128, Year::fresh()),
        };
        *self.year(k) = year;
        row([number, place, year_sum(self.year(k)) as i128])
    }

    /// Reads a day sheet into the log that stands, and gives the answer.
    fn read_sheet(&mut self, regime_end: u32, bytes: &[u8]) -> String {
        let (number, place, log) = match sheet::read(regime_end, bytes) {
            Ok(log) => (0, 0, log),
            Err((refusal, place)) => {
                (refusal, place, Log::empty(regime_end).unwrap_or_else(|_| Log::fresh()))
            }
        };
        self.log = log;
        let (count, sum) = (self.log.count as i128, log_sum(&self.log) as i128);
        row([number as i128, place as i128, count, sum])
    }

    /// Enters a plan into the log that stands, and gives the answer.
    fn enter_plan(&mut self, plan: &Plan) -> String {
        let [number, outage] = failure_numbers(plan::enter(&mut self.log, plan).err());
        row([number, outage, self.log.count as i128, log_sum(&self.log) as i128])
    }

    fn year(&mut self, k: u8) -> &mut Year {
        &mut self.years[k as usize]
    }

    /// Carries out a call and gives its answer line.
    pub fn carry_out(&mut self, call: &Call) -> String {
        match call {
            Call::Empty { regime_end } => {
                let made = Log::empty(*regime_end);
                let number = number_of(made.as_ref().map(|_| ()).map_err(|refusal| *refusal));
                self.log = made.unwrap_or_else(|_| Log::fresh());
                self.log_answer(number)
            }
            Call::Enter { outage, .. } => {
                let number = number_of(self.log.enter(*outage));
                self.log_answer(number)
            }
            Call::Cancel { start, cause, .. } => {
                let number = number_of(self.log.cancel(*start, *cause));
                self.log_answer(number)
            }
            Call::Close { minute } => {
                let number = number_of(self.log.close(*minute));
                self.log_answer(number)
            }
            Call::Lost { a, b } => figures(self.log.lost(*a, *b).map(|lost| [lost])),
            Call::Minutes { year, regime_end } => {
                figures(year_minutes(*year, *regime_end).map(|(first, end)| [first, end]))
            }
            Call::Availability { year } => {
                figures(availability(&self.book, &self.log, *year).map(|energy| [energy]))
            }
            Call::Target { year } => {
                figures(target_met(&self.book, &self.log, *year).map(|met| [met as i128]))
            }
            Call::Levels { k } => {
                let answer = levels(&self.book, &self.years[*k as usize], &self.log);
                figures(answer.map(|(cap, floor)| [cap, floor]))
            }
            Call::Revenue { k } => figures(assessed_revenue(self.year(*k)).map(|pounds| [pounds])),
            Call::Assess { rows } => assessment_figures(assess(rows)),
            Call::Period => assessment_figures(assess_period(&self.book, &self.years, &self.log)),
            Call::Gap { earlier, later } => figures(gap(*earlier, *later).map(|n| [n as i128])),
            Call::Growth { n } => figures(growth(*n).map(|entry| [entry])),
            Call::Pay { amount, n } => figures(payment(*amount, *n).map(|pounds| [pounds])),
            Call::Settle { adjustment, earlier, later } => {
                figures(settle(*adjustment, *earlier, *later).map(|pounds| [pounds]))
            }
            Call::Reconcile { final_amount, provisional, earlier, later } => {
                let answer = reconcile(*final_amount, *provisional, *earlier, *later);
                figures(answer.map(|pounds| [pounds]))
            }
            Call::Read { k, bytes } => self.read_into(*k, bytes),
            Call::ReadKept { k } => self.read_into(*k, &self.kept.clone()),
            Call::Write { k, room } => {
                written_sum(*room as usize, |buffer| write_into(self.year(*k), buffer))
            }
            Call::Refile { room, bytes } => refile_answer(bytes, *room as usize),
            Call::RefileKept { room } => refile_answer(&self.kept, *room as usize),
            Call::Print { bytes } => text_answer(Ok(daysheet::text(bytes))),
            Call::ReadSheet { regime_end, bytes } => self.read_sheet(*regime_end, bytes),
            Call::ReadSheetKept { regime_end } => self.read_sheet(*regime_end, &self.kept.clone()),
            Call::WriteSheet { room } => {
                written_sum(*room as usize, |buffer| sheet::write_into(&self.log, buffer))
            }
            Call::PrintMinute { minute } => text_answer(minute_text(*minute)),
            Call::PrintOutage { outage, .. } => text_answer(outage_text(outage)),
            Call::ShowLog => row(log_numbers(&self.log)),
            Call::ShowYear { k } => row(year_numbers(self.year(*k))),
            Call::ShowBook => row(book_numbers(&self.book)),
            Call::ShowWrite { k, room } => {
                written_bytes(*room, |buffer| write_into(self.year(*k), buffer))
            }
            Call::ShowSheet { room } => {
                written_bytes(*room, |buffer| sheet::write_into(&self.log, buffer))
            }
            Call::ListPlan { regime_end, plan, .. } => list_answer(plan::list(*regime_end, plan)),
            Call::EnterPlan { plan, .. } => self.enter_plan(plan),
            Call::ReadPlan { bytes } => plan_answer(plan::read(bytes)),
            Call::WritePlan { plan, room, .. } => {
                written_sum(*room as usize, |buffer| plan::write_into(plan, buffer))
            }
            Call::MakePeriod { first, last } => period_answer(WorkbookPeriod::make(*first, *last)),
            Call::GapOfMedians { earlier, later } => {
                let [earlier, later] = [earlier, later].map(|bits| WorkbookPeriod::of_bits(*bits));
                figures(gap_of_medians(&earlier, &later).map(|n| [n as i128]))
            }
            Call::Export { amounts, period } => {
                cells_answer(export(amounts, &WorkbookPeriod::of_bits(*period)))
            }
            Call::ReadCells { cells } => read_answer(read_cells(&cells.map(|cell| cell.cell()))),
            Call::PrintCell { index, cell } => text_answer(print_cell(*index, &cell.cell())),
            Call::FillWorkbook { bytes } => cells_answer(fill(bytes)),
            setting => {
                self.set(setting);
                "0".to_string()
            }
        }
    }

    /// Sets what stands to anything.
    fn set(&mut self, call: &Call) {
        match call {
            Call::SetSlot { slot, outage, .. } => self.log.slots[*slot as usize] = *outage,
            Call::SetCount { count, regime_end } => {
                self.log.count = *count;
                self.log.regime_end = *regime_end;
            }
            Call::SetBook { book } => self.book = book.clone(),
            Call::SetYear { k, fields } => {
                let year = self.year(*k);
                year.number = fields.number;
                year.pppi = fields.pppi;
                year.rate = fields.rate;
                year.aic = fields.aic;
                year.pyc = fields.pyc;
                year.pyf = fields.pyf;
                year.mark = fields.mark;
                year.w = fields.w;
                year.line_count = fields.line_count;
            }
            Call::SetLine { k, slot, line } => self.year(*k).lines[*slot as usize] = *line,
            Call::FreshYear { k } => *self.year(*k) = Year::fresh(),
            Call::YearLog { k } => self.years[*k as usize].log = self.log.clone(),
            Call::TakeLog { k } => self.log = self.years[*k as usize].log.clone(),
            Call::Keep { bytes } => {
                let more = bytes.len().min(KEPT - self.kept.len());
                self.kept.extend(&bytes[..more]);
            }
            Call::Forget => self.kept.clear(),
            Call::SetClosed { minute } => self.log.closed = *minute,
            _ => unreachable!("not a call that sets something"),
        }
    }
}

/// Carries out a script and prints each answer on a line of its own.
pub fn carry_out_script(input: &mut impl BufRead, output: &mut impl Write) -> io::Result<()> {
    let mut desk = Desk::new();
    let mut place = 0;
    loop {
        let (field, length) = next_field(input)?;
        match field {
            Field::Call(call) => writeln!(output, "{}", desk.carry_out(&call))?,
            Field::Malformed => return writeln!(output, "malformed {place}"),
            Field::End => return Ok(()),
        }
        place += length;
    }
}

#[cfg(test)]
mod tests {
    use super::*;

    fn answers(script: &[u8]) -> String {
        let mut output = Vec::new();
        carry_out_script(&mut &script[..], &mut output).unwrap();
        String::from_utf8(output).unwrap()
    }

    #[test]
    fn a_short_script() {
        let outage = Slot { start: 10, end: 20, mw: 3, cause: 1 };
        let calls = [
            Call::enter(outage),
            Call::Lost { a: 0, b: 100 },
            Call::Growth { n: 100 },
            Call::Growth { n: 500 },
            Call::ShowBook,
        ];
        let mut script: Vec<u8> = calls.iter().flat_map(Call::encode).collect();
        let mut log = Log::fresh();
        log.enter(outage).unwrap();
        let expected = format!(
            "0 1 {}\n0 30\n0 1038800000\n12 0\n{}\n",
            log_sum(&log),
            "13632480 0 0 83806402 48807317 0 0 0 0 0",
        );
        assert_eq!(answers(&script), expected);
        let length = script.len();
        script.extend([29, 0, 0, 48, 0, 0]);
        assert_eq!(answers(&script), format!("{expected}malformed {length}\n"));
    }

    #[test]
    fn cut_scripts() {
        assert_eq!(answers(&[]), "");
        assert_eq!(answers(&[1]), "malformed 0\n");
        assert_eq!(answers(&[1, 0]), "malformed 0\n");
        assert_eq!(answers(&[20, 0, 1]), "malformed 0\n");
        assert_eq!(answers(&[37, 0, 1, 4, 37, 0, 1, 5]), "0\nmalformed 4\n");
    }

    #[test]
    fn a_refused_empty_log_stands_to_the_last_regime_end() {
        let mut desk = Desk::new();
        desk.carry_out(&Call::Empty { regime_end: 13_000_000 });
        assert_eq!(desk.log.regime_end, 13_000_000);
        let answer = desk.carry_out(&Call::Empty { regime_end: 1 });
        assert_eq!(answer, format!("8 0 {}", log_sum(&Log::fresh())));
        assert_eq!(desk.log, Log::fresh());
    }

    #[test]
    fn a_log_is_closed_set_and_shown() {
        let mut desk = Desk::new();
        let mut log = Log::fresh();
        let refused = desk.carry_out(&Call::Close { minute: 482_401 });
        assert_eq!(refused, format!("9 0 {}", log_sum(&log)));
        log.closed = 482_400;
        let accepted = desk.carry_out(&Call::Close { minute: 482_400 });
        assert_eq!(accepted, format!("0 0 {}", log_sum(&log)));
        assert!(desk.carry_out(&Call::ShowLog).starts_with("0 13632480 482400 0 0 0 0 "));
        assert_eq!(desk.carry_out(&Call::SetClosed { minute: u32::MAX }), "0");
        assert_eq!(desk.log.closed, u32::MAX);
        desk.carry_out(&Call::YearLog { k: 4 });
        assert!(desk.carry_out(&Call::ShowYear { k: 4 }).contains(" 13632480 4294967295 "));
        desk.carry_out(&Call::ReadSheet { regime_end: 13_000_000, bytes: vec![] });
        assert!(desk.carry_out(&Call::ShowLog).starts_with("0 13000000 0 0 0 0 0 "));
    }

    #[test]
    fn a_refused_reading_gives_a_fresh_year() {
        let mut desk = Desk::new();
        desk.years[2].rate = 7;
        let answer = desk.carry_out(&Call::Read { k: 2, bytes: vec![1, 0, 1, 1] });
        assert_eq!(answer, format!("13 4 {}", year_sum(&Year::fresh())));
        assert_eq!(desk.years[2], Year::fresh());
    }

    #[test]
    fn kept_bytes_are_read_as_one_return() {
        let mut desk = Desk::new();
        let bytes = crate::model::yearly_return::write(&Year::fresh(), 100).unwrap();
        for byte in &bytes {
            assert_eq!(desk.carry_out(&Call::Keep { bytes: vec![*byte] }), "0");
        }
        assert!(desk.carry_out(&Call::ReadKept { k: 1 }).starts_with("0 0 "));
        assert!(desk.carry_out(&Call::RefileKept { room: 70_000 }).starts_with("0 30 "));
        for _ in 0..5 {
            desk.carry_out(&Call::Keep { bytes: vec![255; 65_535] });
        }
        assert_eq!(desk.kept.len(), KEPT);
        assert!(desk.carry_out(&Call::ReadKept { k: 1 }).starts_with("13 8192 "));
        assert_eq!(desk.carry_out(&Call::Forget), "0");
        assert!(desk.carry_out(&Call::ReadKept { k: 1 }).starts_with("13 0 "));
    }

    #[test]
    fn a_refused_sheet_leaves_the_empty_log_for_its_regime_end() {
        let mut desk = Desk::new();
        let night = [20, 0, 10, 0, 0, 5, 160, 0, 0, 5, 170, 0, 7];
        let read = |regime_end, bytes: &[u8]| Call::ReadSheet { regime_end, bytes: bytes.to_vec() };
        assert!(desk.carry_out(&read(13_000_000, &night)).starts_with("0 0 1 "));
        assert!(desk.carry_out(&Call::WriteSheet { room: 13 }).starts_with("0 13 "));
        let twice = [night, night].concat();
        let empty = Log::empty(13_000_000).unwrap();
        let answer = desk.carry_out(&read(13_000_000, &twice));
        assert_eq!(answer, format!("4 13 0 {}", log_sum(&empty)));
        assert_eq!(desk.log, empty);
        desk.carry_out(&Call::Keep { bytes: twice });
        let answer = desk.carry_out(&Call::ReadSheetKept { regime_end: 1 });
        assert_eq!(answer, format!("8 0 0 {}", log_sum(&Log::fresh())));
        assert_eq!(desk.carry_out(&Call::ShowSheet { room: 2 }), "0 0 255 254");
        assert_eq!(desk.carry_out(&Call::PrintMinute { minute: 13_632_481 }), "7 0 0");
    }

    #[test]
    fn plans_are_listed_entered_read_and_written() {
        let mut desk = Desk::new();
        let plan = Plan { start: 100, length: 50, step: 1, count: 2, mw: 7, cause: 1 };
        let outages = [
            Slot { start: 100, end: 150, mw: 7, cause: 1 },
            Slot { start: 1_540, end: 1_590, mw: 7, cause: 1 },
        ];
        let mut log = Log::fresh();
        log.hold(&outages);
        let listed = desk.carry_out(&Call::list_plan(13_000_000, plan));
        assert_eq!(listed, format!("0 0 2 {}", slot_sum(&slotted(&outages))));
        let past = Plan { step: 65_535, ..plan };
        let failed = desk.carry_out(&Call::list_plan(13_000_000, past));
        assert_eq!(failed, "2 2 0 0");
        assert_eq!(desk.carry_out(&Call::list_plan(0, past)), "8 0 0 0");
        let entered = desk.carry_out(&Call::enter_plan(plan));
        assert_eq!(entered, format!("0 0 2 {}", log_sum(&log)));
        let full = Plan { start: 101, mw: 994, ..plan };
        for (refused, numbers) in
            [(plan, "19 1"), (past, "19 1"), (full, "4 1"), (Plan::default(), "17 0")]
        {
            let answer = desk.carry_out(&Call::enter_plan(refused));
            assert_eq!(answer, format!("{numbers} 2 {}", log_sum(&log)));
        }
        let bytes = plan.bytes();
        let sum = byte_sum(&bytes);
        assert_eq!(desk.carry_out(&Call::write_plan(plan, 17)), format!("0 17 {sum}"));
        assert!(desk.carry_out(&Call::write_plan(plan, 16)).starts_with("14 0 "));
        let more = [&bytes[..], &[0]].concat();
        assert_eq!(desk.carry_out(&Call::ReadPlan { bytes }), "0 0 100 50 1 2 7 1");
        assert_eq!(desk.carry_out(&Call::ReadPlan { bytes: more }), "13 17 0 0 0 0 0 0");
        let bytes = Plan { cause: 9, ..plan }.bytes();
        assert_eq!(desk.carry_out(&Call::ReadPlan { bytes }), "0 0 100 50 1 2 7 9");
    }

    #[test]
    fn entries_with_causes_are_entered_cancelled_and_shown() {
        let mut desk = Desk::new();
        let outage = |cause| Slot { start: 5, end: 9, mw: 500, cause };
        for (cause, number) in [(2, "0 1 "), (1, "0 2 "), (2, "19 2 "), (3, "4 2 "), (0, "3 2 ")] {
            assert!(desk.carry_out(&Call::enter(outage(cause))).starts_with(number));
        }
        let shown = desk.carry_out(&Call::ShowLog);
        assert!(shown.starts_with("2 13632480 0 5 9 500 1 5 9 500 2 0 0 0 0 "));
        assert_eq!(shown.split(' ').count(), 3 + 4 * 400);
        assert!(desk.carry_out(&Call::WriteSheet { room: 0 }).starts_with("20 0 "));
        assert!(desk.carry_out(&Call::cancel(5, 3)).starts_with("6 2 "));
        assert!(desk.carry_out(&Call::cancel(5, 1)).starts_with("0 1 "));
        assert!(desk.carry_out(&Call::WriteSheet { room: 0 }).starts_with("20 0 "));
        let line = "2019-01-31 00:05 2019-01-31 00:09 500 2\n";
        let printed = desk.carry_out(&Call::print_outage(outage(2)));
        assert_eq!(printed, format!("0 {} {}", line.len(), byte_sum(line.as_bytes())));
    }

    /// The bits of 61, 62 and their median: 2^5 times 1 + 29/32, 30/32 and 59/64.
    const DAYS: [u64; 3] = [0x404e_8000_0000_0000, 0x404f_0000_0000_0000, 0x404e_c000_0000_0000];

    #[test]
    fn periods_of_a_workbook() {
        let mut desk = Desk::new();
        let [first, last, median] = DAYS;
        let made = desk.carry_out(&Call::MakePeriod { first: 61, last: 62 });
        assert_eq!(made, format!("0 {first} {last} {median}"));
        assert_eq!(desk.carry_out(&Call::MakePeriod { first: 62, last: 61 }), "12 0 0 0");
        let gap = |earlier, later| Call::GapOfMedians { earlier, later };
        assert_eq!(desk.carry_out(&gap(DAYS, DAYS)), "0 0");
        assert_eq!(desk.carry_out(&gap(DAYS, [first, last, first])), "12 0");
        assert_eq!(desk.carry_out(&gap([0; 3], DAYS)), "12 0");
    }

    #[test]
    fn cells_of_a_workbook() {
        let mut desk = Desk::new();
        let [first, last, median] = DAYS;
        let amounts = std::array::from_fn(|index| (index == 0) as i64);
        let exported = desk.carry_out(&Call::Export { amounts, period: DAYS });
        let mut cells = Box::new([CellBits { kind: 1, bits: 0 }; CELLS]);
        cells[0].bits = 1f64.to_bits();
        for yearly_w in [3, 7, 11, 15, 19] {
            cells[yearly_w].kind = 0;
        }
        cells[25..].copy_from_slice(&DAYS.map(|bits| CellBits { kind: 2, bits }));
        let row: Vec<String> = cells.iter().map(|c| format!("{} {}", c.kind, c.bits)).collect();
        assert_eq!(exported, format!("0 {}", row.join(" ")));
        let refused = desk.carry_out(&Call::Export { amounts, period: [0; 3] });
        assert_eq!(refused, format!("12{}", " 0 0".repeat(28)));
        let zeros = " 0".repeat(24);
        let read = desk.carry_out(&Call::ReadCells { cells: cells.clone() });
        assert_eq!(read, format!("0 0 1{zeros} {first} {last} {median}"));
        cells[5].kind = 2;
        let refused = desk.carry_out(&Call::ReadCells { cells });
        assert_eq!(refused, format!("18 5 0{zeros} 0 0 0"));
    }

    #[test]
    fn workbooks_are_printed_and_filled() {
        let mut desk = Desk::new();
        let print = |index, bits| Call::PrintCell { index, cell: CellBits { kind: 2, bits } };
        let sum = byte_sum(b"median,61.5\n");
        assert_eq!(desk.carry_out(&print(27, DAYS[2])), format!("0 12 {sum}"));
        assert_eq!(desk.carry_out(&print(26, DAYS[2])), "18 0 0");
        let refused = desk.carry_out(&Call::FillWorkbook { bytes: vec![] });
        assert_eq!(refused, format!("13{}", " 0 0".repeat(28)));
        let mut bytes = vec![0, 0, 0, 61, 0, 0, 0, 62];
        for number in 1..=5 {
            let year = Year { number, ..Year::fresh() };
            let filed = crate::model::yearly_return::write(&year, 30).unwrap();
            bytes.extend([0, filed.len() as u8]);
            bytes.extend(filed);
        }
        let filled = desk.carry_out(&Call::FillWorkbook { bytes });
        // 0, and 83,806,402 and 48,807,317 as floats; no W.
        assert!(filled.starts_with("0 1 0 1 4725396561918427136 1 4721819617054425088 0 0 1 0 "));
        assert!(filled.ends_with(&format!(" 2 {} 2 {} 2 {}", DAYS[0], DAYS[1], DAYS[2])));
    }

    #[test]
    fn room_and_untouched_bytes() {
        let mut desk = Desk::new();
        assert!(desk.carry_out(&Call::Write { k: 0, room: 30 }).starts_with("0 30 "));
        assert!(desk.carry_out(&Call::Write { k: 0, room: 29 }).starts_with("14 0 "));
        assert_eq!(desk.carry_out(&Call::ShowWrite { k: 0, room: 3 }), "14 0 255 254 253");
    }
}
