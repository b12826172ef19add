//! Scripts of calls (docs/REPLAY.md, "A script" and "Calls").

use std::io::{self, Read};

use crate::model::assessment::Row;
use crate::model::book::Book;
use crate::model::log::{Slot, SLOTS, USUAL_CAUSE};
use crate::model::plan::Plan;
use crate::model::settlement::Period;
use crate::model::workbook::{Cell, AMOUNTS, CELLS};
use crate::model::year::{Line, Year, LINES};

/// A year but for its lines and its log, as tag 35 sets it.
#[derive(Clone, Debug, PartialEq, Eq)]
pub struct YearFields {
    pub number: u8,
    pub pppi: u32,
    pub rate: u32,
    pub aic: u16,
    pub pyc: u16,
    pub pyf: u16,
    pub mark: bool,
    pub w: i64,
    pub line_count: u64,
}

impl YearFields {
    pub fn of(year: &Year) -> YearFields {
        YearFields {
            number: year.number,
            pppi: year.pppi,
            rate: year.rate,
            aic: year.aic,
            pyc: year.pyc,
            pyf: year.pyf,
            mark: year.mark,
            w: year.w,
            line_count: year.line_count,
        }
    }
}

/// The bits of the three floats of a workbook's period.
pub type PeriodBits = [u64; 3];

/// A cell: its kind, 0 for empty, 1 for a number, 2 for a day, and the bits of
/// its float, which an empty cell does not look at.
#[derive(Clone, Copy, Debug, Default)]
pub struct CellBits {
    pub kind: u8,
    pub bits: u64,
}

impl PartialEq for CellBits {
    fn eq(&self, other: &CellBits) -> bool {
        self.kind == other.kind && (self.kind == 0 || self.bits == other.bits)
    }
}

impl Eq for CellBits {}

impl CellBits {
    pub fn of(cell: &Cell) -> CellBits {
        match cell {
            Cell::Empty => CellBits { kind: 0, bits: 0 },
            Cell::Number(number) => CellBits { kind: 1, bits: number.to_bits() },
            Cell::Day(day) => CellBits { kind: 2, bits: day.to_bits() },
        }
    }

    pub fn cell(&self) -> Cell {
        match self.kind {
            0 => Cell::Empty,
            1 => Cell::Number(f64::from_bits(self.bits)),
            _ => Cell::Day(f64::from_bits(self.bits)),
        }
    }
}

/// The most bytes that are kept, and that a call lends.
pub const KEPT: usize = 262_144;

/// A call; k is the place of a year, 0 to 4. Where a cause may be left out, it is
/// spelled if the value has it all the same.
#[derive(Clone, Debug, PartialEq, Eq)]
pub enum Call {
    Empty { regime_end: u32 },
    Enter { outage: Slot, spelled: bool },
    Cancel { start: u32, cause: u8, spelled: bool },
    Lost { a: u32, b: u32 },
    Minutes { year: u8, regime_end: u32 },
    Availability { year: u8 },
    Target { year: u8 },
    Levels { k: u8 },
    Revenue { k: u8 },
    Assess { rows: [Row; 5] },
    Period,
    Gap { earlier: Period, later: Period },
    Growth { n: u32 },
    Pay { amount: i64, n: u32 },
    Settle { adjustment: i64, earlier: Period, later: Period },
    Reconcile { final_amount: i64, provisional: i64, earlier: Period, later: Period },
    Read { k: u8, bytes: Vec<u8> },
    Write { k: u8, room: u16 },
    Refile { room: u16, bytes: Vec<u8> },
    Print { bytes: Vec<u8> },
    ReadKept { k: u8 },
    RefileKept { room: u32 },
    ReadSheet { regime_end: u32, bytes: Vec<u8> },
    ReadSheetKept { regime_end: u32 },
    WriteSheet { room: u32 },
    PrintMinute { minute: u32 },
    PrintOutage { outage: Slot, spelled: bool },
    Close { minute: u32 },
    SetSlot { slot: u16, outage: Slot, spelled: bool },
    SetCount { count: u64, regime_end: u32 },
    SetBook { book: Book },
    SetYear { k: u8, fields: YearFields },
    SetLine { k: u8, slot: u8, line: Line },
    FreshYear { k: u8 },
    YearLog { k: u8 },
    TakeLog { k: u8 },
    Keep { bytes: Vec<u8> },
    Forget,
    SetClosed { minute: u32 },
    ShowLog,
    ShowYear { k: u8 },
    ShowBook,
    ShowWrite { k: u8, room: u16 },
    ShowSheet { room: u16 },
    ListPlan { regime_end: u32, plan: Plan, spelled: bool },
    EnterPlan { plan: Plan, spelled: bool },
    ReadPlan { bytes: Vec<u8> },
    WritePlan { plan: Plan, room: u32, spelled: bool },
    MakePeriod { first: u32, last: u32 },
    GapOfMedians { earlier: PeriodBits, later: PeriodBits },
    Export { amounts: [i64; AMOUNTS], period: PeriodBits },
    ReadCells { cells: Box<[CellBits; CELLS]> },
    PrintCell { index: u32, cell: CellBits },
    FillWorkbook { bytes: Vec<u8> },
}

/// The cause that a value of `set-slot` means where it has none: a slot of zeros
/// is a zero slot.
pub fn cause_of_slot(start: u32, end: u32, mw: u16) -> u8 {
    if (start, end, mw) == (0, 0, 0) {
        0
    } else {
        USUAL_CAUSE
    }
}

/// Calls that leave their cause out where they may.
impl Call {
    pub fn enter(outage: Slot) -> Call {
        Call::Enter { outage, spelled: outage.cause != USUAL_CAUSE }
    }

    pub fn cancel(start: u32, cause: u8) -> Call {
        Call::Cancel { start, cause, spelled: cause != USUAL_CAUSE }
    }

    pub fn print_outage(outage: Slot) -> Call {
        Call::PrintOutage { outage, spelled: outage.cause != USUAL_CAUSE }
    }

    pub fn set_slot(slot: u16, outage: Slot) -> Call {
        let left_out = cause_of_slot(outage.start, outage.end, outage.mw);
        Call::SetSlot { slot, outage, spelled: outage.cause != left_out }
    }

    pub fn list_plan(regime_end: u32, plan: Plan) -> Call {
        Call::ListPlan { regime_end, plan, spelled: plan.cause != USUAL_CAUSE }
    }

    pub fn enter_plan(plan: Plan) -> Call {
        Call::EnterPlan { plan, spelled: plan.cause != USUAL_CAUSE }
    }

    pub fn write_plan(plan: Plan, room: u32) -> Call {
        Call::WritePlan { plan, room, spelled: plan.cause != USUAL_CAUSE }
    }
}

impl Call {
    /// Whether the call has a cause that is spelled; none where it has no cause.
    pub fn spells(&mut self) -> Option<&mut bool> {
        match self {
            Call::Enter { spelled, .. }
            | Call::Cancel { spelled, .. }
            | Call::PrintOutage { spelled, .. }
            | Call::SetSlot { spelled, .. }
            | Call::ListPlan { spelled, .. }
            | Call::EnterPlan { spelled, .. }
            | Call::WritePlan { spelled, .. } => Some(spelled),
            _ => None,
        }
    }

    pub fn tag(&self) -> u8 {
        match self {
            Call::Empty { .. } => 1,
            Call::Enter { .. } => 2,
            Call::Cancel { .. } => 3,
            Call::Lost { .. } => 4,
            Call::Minutes { .. } => 5,
            Call::Availability { .. } => 6,
            Call::Target { .. } => 7,
            Call::Levels { .. } => 8,
            Call::Revenue { .. } => 9,
            Call::Assess { .. } => 10,
            Call::Period => 11,
            Call::Gap { .. } => 12,
            Call::Growth { .. } => 13,
            Call::Pay { .. } => 14,
            Call::Settle { .. } => 15,
            Call::Reconcile { .. } => 16,
            Call::Read { .. } => 17,
            Call::Write { .. } => 18,
            Call::Refile { .. } => 19,
            Call::Print { .. } => 20,
            Call::ReadKept { .. } => 21,
            Call::RefileKept { .. } => 22,
            Call::ReadSheet { .. } => 23,
            Call::ReadSheetKept { .. } => 24,
            Call::WriteSheet { .. } => 25,
            Call::PrintMinute { .. } => 26,
            Call::PrintOutage { .. } => 27,
            Call::Close { .. } => 28,
            Call::SetSlot { .. } => 32,
            Call::SetCount { .. } => 33,
            Call::SetBook { .. } => 34,
            Call::SetYear { .. } => 35,
            Call::SetLine { .. } => 36,
            Call::FreshYear { .. } => 37,
            Call::YearLog { .. } => 38,
            Call::TakeLog { .. } => 39,
            Call::Keep { .. } => 40,
            Call::Forget => 41,
            Call::SetClosed { .. } => 42,
            Call::ShowLog => 48,
            Call::ShowYear { .. } => 49,
            Call::ShowBook => 50,
            Call::ShowWrite { .. } => 51,
            Call::ShowSheet { .. } => 52,
            Call::ListPlan { .. } => 64,
            Call::EnterPlan { .. } => 65,
            Call::ReadPlan { .. } => 66,
            Call::WritePlan { .. } => 67,
            Call::MakePeriod { .. } => 68,
            Call::GapOfMedians { .. } => 69,
            Call::Export { .. } => 70,
            Call::ReadCells { .. } => 71,
            Call::PrintCell { .. } => 72,
            Call::FillWorkbook { .. } => 73,
        }
    }

    /// The call's field in a script.
    pub fn encode(&self) -> Vec<u8> {
        let mut value = Value(Vec::new());
        self.put(&mut value);
        let mut field = vec![self.tag()];
        field.extend((value.0.len() as u16).to_be_bytes());
        field.extend(value.0);
        field
    }

    fn put(&self, value: &mut Value) {
        match self {
            Call::Empty { regime_end } | Call::ReadSheetKept { regime_end } => {
                value.u32(*regime_end)
            }
            Call::Enter { outage, spelled } | Call::PrintOutage { outage, spelled } => {
                value.outage(outage, *spelled)
            }
            Call::Cancel { start, cause, spelled } => {
                value.u32(*start);
                value.cause(*cause, *spelled);
            }
            Call::Lost { a, b } => {
                value.u32(*a);
                value.u32(*b);
            }
            Call::Minutes { year, regime_end } => {
                value.u8(*year);
                value.u32(*regime_end);
            }
            Call::Availability { year } | Call::Target { year } => value.u8(*year),
            Call::Levels { k }
            | Call::Revenue { k }
            | Call::FreshYear { k }
            | Call::YearLog { k }
            | Call::TakeLog { k }
            | Call::ReadKept { k }
            | Call::ShowYear { k } => value.u8(*k),
            Call::Assess { rows } => rows.iter().for_each(|row| value.row(row)),
            Call::Period | Call::Forget | Call::ShowLog | Call::ShowBook => (),
            Call::Gap { earlier, later } => value.periods(earlier, later),
            Call::Growth { n } => value.u32(*n),
            Call::Pay { amount, n } => {
                value.i64(*amount);
                value.u32(*n);
            }
            Call::Settle { adjustment, earlier, later } => {
                value.i64(*adjustment);
                value.periods(earlier, later);
            }
            Call::Reconcile { final_amount, provisional, earlier, later } => {
                value.i64(*final_amount);
                value.i64(*provisional);
                value.periods(earlier, later);
            }
            Call::Read { k, bytes } => {
                value.u8(*k);
                value.0.extend(bytes);
            }
            Call::Write { k, room } | Call::ShowWrite { k, room } => {
                value.u8(*k);
                value.u16(*room);
            }
            Call::Refile { room, bytes } => {
                value.u16(*room);
                value.0.extend(bytes);
            }
            Call::Print { bytes }
            | Call::Keep { bytes }
            | Call::ReadPlan { bytes }
            | Call::FillWorkbook { bytes } => value.0.extend(bytes),
            Call::RefileKept { room } | Call::WriteSheet { room } => value.u32(*room),
            Call::ReadSheet { regime_end, bytes } => {
                value.u32(*regime_end);
                value.0.extend(bytes);
            }
            Call::PrintMinute { minute } | Call::Close { minute } | Call::SetClosed { minute } => {
                value.u32(*minute)
            }
            Call::ShowSheet { room } => value.u16(*room),
            Call::SetSlot { slot, outage, spelled } => {
                value.u16(*slot);
                value.outage(outage, *spelled);
            }
            Call::SetCount { count, regime_end } => {
                value.u64(*count);
                value.u32(*regime_end);
            }
            Call::SetBook { book } => value.book(book),
            Call::SetYear { k, fields } => {
                value.u8(*k);
                value.year(fields);
            }
            Call::SetLine { k, slot, line } => {
                value.u8(*k);
                value.u8(*slot);
                value.u8(line.kind);
                value.u8(line.currency);
                value.i64(line.amount);
            }
            Call::ListPlan { regime_end, plan, spelled } => {
                value.u32(*regime_end);
                value.plan(plan, *spelled);
            }
            Call::EnterPlan { plan, spelled } => value.plan(plan, *spelled),
            Call::WritePlan { plan, room, spelled } => {
                value.plan(plan, *spelled);
                value.u32(*room);
            }
            Call::MakePeriod { first, last } => {
                value.u32(*first);
                value.u32(*last);
            }
            Call::GapOfMedians { earlier, later } => {
                value.floats(earlier);
                value.floats(later);
            }
            Call::Export { amounts, period } => {
                amounts.iter().for_each(|amount| value.i64(*amount));
                value.floats(period);
            }
            Call::ReadCells { cells } => cells.iter().for_each(|cell| value.cell(cell)),
            Call::PrintCell { index, cell } => {
                value.u32(*index);
                value.cell(cell);
            }
        }
    }

    /// The call of a tag and a value; none where they are malformed.
    pub fn decode(tag: u8, value: &[u8]) -> Option<Call> {
        let mut part = Parts(value);
        let call = match tag {
            1 => Call::Empty { regime_end: part.u32()? },
            2 => {
                let (outage, spelled) = part.outage()?;
                Call::Enter { outage, spelled }
            }
            3 => {
                let start = part.u32()?;
                let (cause, spelled) = part.cause(0, USUAL_CAUSE)?;
                Call::Cancel { start, cause, spelled }
            }
            4 => Call::Lost { a: part.u32()?, b: part.u32()? },
            5 => Call::Minutes { year: part.u8()?, regime_end: part.u32()? },
            6 => Call::Availability { year: part.u8()? },
            7 => Call::Target { year: part.u8()? },
            8 => Call::Levels { k: part.k()? },
            9 => Call::Revenue { k: part.k()? },
            10 => {
                let mut rows = [Row::default(); 5];
                for row in &mut rows {
                    *row = part.row()?;
                }
                Call::Assess { rows }
            }
            11 => Call::Period,
            12 => Call::Gap { earlier: part.period()?, later: part.period()? },
            13 => Call::Growth { n: part.u32()? },
            14 => Call::Pay { amount: part.i64()?, n: part.u32()? },
            15 => Call::Settle {
                adjustment: part.i64()?,
                earlier: part.period()?,
                later: part.period()?,
            },
            16 => Call::Reconcile {
                final_amount: part.i64()?,
                provisional: part.i64()?,
                earlier: part.period()?,
                later: part.period()?,
            },
            17 => Call::Read { k: part.k()?, bytes: part.rest() },
            18 => Call::Write { k: part.k()?, room: part.u16()? },
            19 => Call::Refile { room: part.u16()?, bytes: part.rest() },
            20 => Call::Print { bytes: part.rest() },
            21 => Call::ReadKept { k: part.k()? },
            22 => Call::RefileKept { room: part.u32()? },
            23 => Call::ReadSheet { regime_end: part.u32()?, bytes: part.rest() },
            24 => Call::ReadSheetKept { regime_end: part.u32()? },
            25 => Call::WriteSheet { room: part.u32()? },
            26 => Call::PrintMinute { minute: part.u32()? },
            27 => {
                let (outage, spelled) = part.outage()?;
                Call::PrintOutage { outage, spelled }
            }
            28 => Call::Close { minute: part.u32()? },
            32 => {
                let slot = part.u16()?;
                if slot as usize >= SLOTS {
                    return None;
                }
                let (start, end, mw) = part.span()?;
                let (cause, spelled) = part.cause(0, cause_of_slot(start, end, mw))?;
                Call::SetSlot { slot, outage: Slot { start, end, mw, cause }, spelled }
            }
            33 => Call::SetCount { count: part.u64()?, regime_end: part.u32()? },
            34 => Call::SetBook { book: part.book()? },
            35 => Call::SetYear { k: part.k()?, fields: part.year()? },
            36 => {
                let (k, slot) = (part.k()?, part.u8()?);
                if slot as usize >= LINES {
                    return None;
                }
                let line = Line { kind: part.u8()?, currency: part.u8()?, amount: part.i64()? };
                Call::SetLine { k, slot, line }
            }
            37 => Call::FreshYear { k: part.k()? },
            38 => Call::YearLog { k: part.k()? },
            39 => Call::TakeLog { k: part.k()? },
            40 => Call::Keep { bytes: part.rest() },
            41 => Call::Forget,
            42 => Call::SetClosed { minute: part.u32()? },
            48 => Call::ShowLog,
            49 => Call::ShowYear { k: part.k()? },
            50 => Call::ShowBook,
            51 => Call::ShowWrite { k: part.k()?, room: part.u16()? },
            52 => Call::ShowSheet { room: part.u16()? },
            64 => {
                let regime_end = part.u32()?;
                let (plan, spelled) = part.plan(0)?;
                Call::ListPlan { regime_end, plan, spelled }
            }
            65 => {
                let (plan, spelled) = part.plan(0)?;
                Call::EnterPlan { plan, spelled }
            }
            66 => Call::ReadPlan { bytes: part.rest() },
            67 => {
                let (plan, spelled) = part.plan(4)?;
                Call::WritePlan { plan, room: part.u32()?, spelled }
            }
            68 => Call::MakePeriod { first: part.u32()?, last: part.u32()? },
            69 => Call::GapOfMedians { earlier: part.floats()?, later: part.floats()? },
            70 => {
                let mut amounts = [0; AMOUNTS];
                for amount in &mut amounts {
                    *amount = part.i64()?;
                }
                Call::Export { amounts, period: part.floats()? }
            }
            71 => {
                let mut cells = Box::new([CellBits::default(); CELLS]);
                for cell in cells.iter_mut() {
                    *cell = part.cell()?;
                }
                Call::ReadCells { cells }
            }
            72 => Call::PrintCell { index: part.u32()?, cell: part.cell()? },
            73 => Call::FillWorkbook { bytes: part.rest() },
            _ => return None,
        };
        part.0.is_empty().then_some(call)
    }
}

/// A value under way.
struct Value(Vec<u8>);

impl Value {
    fn u8(&mut self, number: u8) {
        self.0.push(number);
    }

    fn u16(&mut self, number: u16) {
        self.0.extend(number.to_be_bytes());
    }

    fn u32(&mut self, number: u32) {
        self.0.extend(number.to_be_bytes());
    }

    fn u64(&mut self, number: u64) {
        self.0.extend(number.to_be_bytes());
    }

    fn i64(&mut self, number: i64) {
        self.0.extend(number.to_be_bytes());
    }

    /// A cause where it is spelled.
    fn cause(&mut self, cause: u8, spelled: bool) {
        if spelled {
            self.u8(cause);
        }
    }

    fn outage(&mut self, outage: &Slot, spelled: bool) {
        self.u32(outage.start);
        self.u32(outage.end);
        self.u16(outage.mw);
        self.cause(outage.cause, spelled);
    }

    fn plan(&mut self, plan: &Plan, spelled: bool) {
        self.u32(plan.start);
        self.u32(plan.length);
        for number in [plan.step, plan.count, plan.mw] {
            self.u16(number);
        }
        self.cause(plan.cause, spelled);
    }

    fn floats(&mut self, period: &PeriodBits) {
        period.iter().for_each(|bits| self.u64(*bits));
    }

    fn cell(&mut self, cell: &CellBits) {
        self.u8(cell.kind);
        self.u64(cell.bits);
    }

    fn row(&mut self, row: &Row) {
        self.u32(row.index);
        self.i64(row.revenue);
        self.i64(row.cap);
        self.i64(row.floor);
        self.i64(row.w);
    }

    fn periods(&mut self, earlier: &Period, later: &Period) {
        for day in [earlier.first, earlier.last, later.first, later.last] {
            self.u32(day);
        }
    }

    fn book(&mut self, book: &Book) {
        self.u32(book.regime_end);
        self.u32(book.target_1);
        self.u32(book.target_25);
        for amount in [book.pcl, book.pfl, book.pcac, book.pcaf, book.orac, book.oraf] {
            self.i64(amount);
        }
        self.u16(book.miss_factor);
    }

    fn year(&mut self, fields: &YearFields) {
        self.u8(fields.number);
        self.u32(fields.pppi);
        self.u32(fields.rate);
        self.u16(fields.aic);
        self.u16(fields.pyc);
        self.u16(fields.pyf);
        self.u8(fields.mark as u8);
        self.i64(fields.w);
        self.u64(fields.line_count);
    }
}

/// What is left of a value.
struct Parts<'a>(&'a [u8]);

impl Parts<'_> {
    fn bytes<const N: usize>(&mut self) -> Option<[u8; N]> {
        let taken = self.0.get(..N)?.try_into().ok()?;
        self.0 = &self.0[N..];
        Some(taken)
    }

    fn u8(&mut self) -> Option<u8> {
        self.bytes::<1>().map(|bytes| bytes[0])
    }

    fn u16(&mut self) -> Option<u16> {
        self.bytes().map(u16::from_be_bytes)
    }

    fn u32(&mut self) -> Option<u32> {
        self.bytes().map(u32::from_be_bytes)
    }

    fn u64(&mut self) -> Option<u64> {
        self.bytes().map(u64::from_be_bytes)
    }

    fn i64(&mut self) -> Option<i64> {
        self.bytes().map(i64::from_be_bytes)
    }

    fn k(&mut self) -> Option<u8> {
        self.u8().filter(|k| *k <= 4)
    }

    fn rest(&mut self) -> Vec<u8> {
        std::mem::take(&mut self.0).to_vec()
    }

    /// A cause, and whether it is spelled: it is where more bytes are left than
    /// so many behind it.
    fn cause(&mut self, behind: usize, left_out: u8) -> Option<(u8, bool)> {
        if self.0.len() > behind {
            Some((self.u8()?, true))
        } else {
            Some((left_out, false))
        }
    }

    fn span(&mut self) -> Option<(u32, u32, u16)> {
        Some((self.u32()?, self.u32()?, self.u16()?))
    }

    fn outage(&mut self) -> Option<(Slot, bool)> {
        let (start, end, mw) = self.span()?;
        let (cause, spelled) = self.cause(0, USUAL_CAUSE)?;
        Some((Slot { start, end, mw, cause }, spelled))
    }

    /// A plan with so many bytes behind it.
    fn plan(&mut self, behind: usize) -> Option<(Plan, bool)> {
        let (start, length) = (self.u32()?, self.u32()?);
        let (step, count, mw) = (self.u16()?, self.u16()?, self.u16()?);
        let (cause, spelled) = self.cause(behind, USUAL_CAUSE)?;
        Some((Plan { start, length, step, count, mw, cause }, spelled))
    }

    fn floats(&mut self) -> Option<PeriodBits> {
        Some([self.u64()?, self.u64()?, self.u64()?])
    }

    fn cell(&mut self) -> Option<CellBits> {
        let kind = self.u8().filter(|kind| *kind <= 2)?;
        Some(CellBits { kind, bits: self.u64()? })
    }

    fn row(&mut self) -> Option<Row> {
        Some(Row {
            index: self.u32()?,
            revenue: self.i64()?,
            cap: self.i64()?,
            floor: self.i64()?,
            w: self.i64()?,
        })
    }

    fn period(&mut self) -> Option<Period> {
        Some(Period { first: self.u32()?, last: self.u32()? })
    }

    fn book(&mut self) -> Option<Book> {
        Some(Book {
            regime_end: self.u32()?,
            target_1: self.u32()?,
            target_25: self.u32()?,
            pcl: self.i64()?,
            pfl: self.i64()?,
            pcac: self.i64()?,
            pcaf: self.i64()?,
            orac: self.i64()?,
            oraf: self.i64()?,
            miss_factor: self.u16()?,
        })
    }

    fn year(&mut self) -> Option<YearFields> {
        Some(YearFields {
            number: self.u8()?,
            pppi: self.u32()?,
            rate: self.u32()?,
            aic: self.u16()?,
            pyc: self.u16()?,
            pyf: self.u16()?,
            mark: match self.u8()? {
                0 => false,
                1 => true,
                _ => return None,
            },
            w: self.i64()?,
            line_count: self.u64()?,
        })
    }
}

/// The next field of a script.
pub enum Field {
    Call(Call),
    Malformed,
    End,
}

/// Reads so many bytes, or those that are left.
fn read_some(input: &mut impl Read, count: usize) -> io::Result<Vec<u8>> {
    let mut bytes = Vec::new();
    input.take(count as u64).read_to_end(&mut bytes)?;
    Ok(bytes)
}

/// The next field and its length in bytes.
pub fn next_field(input: &mut impl Read) -> io::Result<(Field, u64)> {
    let head = read_some(input, 3)?;
    if head.is_empty() {
        return Ok((Field::End, 0));
    }
    if head.len() < 3 {
        return Ok((Field::Malformed, 0));
    }
    let length = u16::from_be_bytes([head[1], head[2]]) as usize;
    let value = read_some(input, length)?;
    let field = match Call::decode(head[0], &value) {
        Some(call) if value.len() == length => Field::Call(call),
        _ => Field::Malformed,
    };
    Ok((field, 3 + length as u64))
}

#[cfg(test)]
mod tests {
    use super::*;
    use crate::generate::Generator;

    #[test]
    fn fields_go_there_and_back() {
        let mut generator = Generator::new(7);
        for _ in 0..40 {
            for (call, _) in generator.next_block().calls {
                let field = call.encode();
                assert_eq!(Call::decode(field[0], &field[3..]), Some(call));
            }
        }
    }

    #[test]
    fn malformed_fields() {
        assert_eq!(Call::decode(1, &[0; 3]), None);
        assert_eq!(Call::decode(1, &[0; 5]), None);
        assert_eq!(Call::decode(21, &[]), None);
        assert_eq!(Call::decode(0, &[]), None);
        assert_eq!(Call::decode(8, &[5]), None);
        assert!(Call::decode(8, &[4]).is_some());
        assert_eq!(Call::decode(17, &[]), None);
        assert!(Call::decode(20, &[]).is_some());
        assert_eq!(Call::decode(23, &[0; 3]), None);
        assert!(Call::decode(23, &[0; 4]).is_some());
        assert_eq!(Call::decode(24, &[0; 5]), None);
        assert_eq!(Call::decode(28, &[0; 3]), None);
        assert_eq!(Call::decode(28, &[0, 0, 1, 2]), Some(Call::Close { minute: 258 }));
        assert_eq!(Call::decode(42, &[0; 5]), None);
        assert_eq!(Call::decode(42, &[0, 0, 1, 2]), Some(Call::SetClosed { minute: 258 }));
        for length in [10, 11] {
            let zeros = vec![0; length];
            assert_eq!(Call::decode(32, &[&[1, 144][..], &zeros].concat()), None);
            assert!(Call::decode(32, &[&[1, 143][..], &zeros].concat()).is_some());
        }
        assert_eq!(Call::decode(36, &[0, 64, 0, 0, 0, 0, 0, 0, 0, 0, 0, 0]), None);
    }

    #[test]
    fn fields_with_a_cause_or_without() {
        let outage = Slot { start: 258, end: 259, mw: 3, cause: 1 };
        let value = [0, 0, 1, 2, 0, 0, 1, 3, 0, 3];
        let with = |cause: u8| [&value[..], &[cause]].concat();
        for (tag, call) in [(2, Call::enter as fn(Slot) -> Call), (27, Call::print_outage)] {
            assert_eq!(Call::decode(tag, &value), Some(call(outage)));
            assert_eq!(call(outage).encode()[3..], value);
            for cause in [0, 2, 255] {
                let other = call(Slot { cause, ..outage });
                assert_eq!(Call::decode(tag, &with(cause)), Some(other));
            }
            let mut spelled = call(outage);
            *spelled.spells().unwrap() = true;
            assert_eq!(spelled.encode()[3..], with(1));
            assert_eq!(Call::decode(tag, &with(1)), Some(spelled));
            assert_eq!(Call::decode(tag, &value[1..]), None);
            assert_eq!(Call::decode(tag, &[&with(2)[..], &[0]].concat()), None);
        }
        assert_eq!(Call::decode(3, &[0, 0, 1, 2]), Some(Call::cancel(258, 1)));
        assert_eq!(Call::decode(3, &[0, 0, 1, 2, 0]), Some(Call::cancel(258, 0)));
        assert_eq!(Call::decode(3, &[0, 0, 1, 2, 9]), Some(Call::cancel(258, 9)));
        assert_eq!(Call::decode(3, &[0, 0, 1]), None);
        assert_eq!(Call::decode(3, &[0, 0, 1, 2, 9, 0]), None);
    }

    #[test]
    fn a_slot_of_zeros_is_a_zero_slot() {
        let zeros = [0; 13];
        let zero = Call::set_slot(0, Slot::default());
        assert_eq!(Call::decode(32, &zeros[..12]), Some(zero.clone()));
        assert_eq!(zero.encode()[3..], zeros[..12]);
        let spelled = Call::SetSlot { slot: 0, outage: Slot::default(), spelled: true };
        assert_eq!(Call::decode(32, &zeros), Some(spelled));
        let mut with_cause = zeros;
        with_cause[12] = 1;
        let outage = Slot { cause: 1, ..Slot::default() };
        assert_eq!(Call::decode(32, &with_cause), Some(Call::set_slot(0, outage)));
        for place in [2, 6, 10] {
            let mut value = zeros;
            value[place] = 1;
            let Some(Call::SetSlot { outage, spelled, .. }) = Call::decode(32, &value[..12]) else {
                panic!()
            };
            assert_eq!((outage.cause, spelled), (1, false));
        }
        assert_eq!(Call::decode(32, &zeros[..11]), None);
        assert_eq!(Call::decode(32, &[0; 14]), None);
    }

    #[test]
    fn fields_of_plans() {
        let plan = Plan { start: 0x0102_0304, length: 5, step: 6, count: 7, mw: 0x0809, cause: 1 };
        let value = [1, 2, 3, 4, 0, 0, 0, 5, 0, 6, 0, 7, 8, 9];
        let with = |before: &[u8], after: &[u8]| [before, &value, after].concat();
        let by = |cause| Plan { cause, ..plan };
        assert_eq!(Call::decode(65, &value), Some(Call::enter_plan(plan)));
        assert_eq!(Call::decode(65, &value[1..]), None);
        assert_eq!(Call::decode(65, &with(&[], &[0])), Some(Call::enter_plan(by(0))));
        let spelled = Call::EnterPlan { plan, spelled: true };
        assert_eq!(Call::decode(65, &with(&[], &[1])), Some(spelled));
        assert_eq!(Call::decode(65, &with(&[], &[2, 0])), None);
        let listed = Call::list_plan(258, plan);
        assert_eq!(Call::decode(64, &with(&[0, 0, 1, 2], &[])), Some(listed));
        let listed = Call::list_plan(258, by(7));
        assert_eq!(Call::decode(64, &with(&[0, 0, 1, 2], &[7])), Some(listed));
        assert_eq!(Call::decode(64, &with(&[0, 0, 1], &[])), None);
        assert_eq!(Call::decode(64, &with(&[0, 0, 1, 2], &[7, 7])), None);
        let written = Call::write_plan(plan, 258);
        assert_eq!(Call::decode(67, &with(&[], &[0, 0, 1, 2])), Some(written));
        let written = Call::write_plan(by(7), 258);
        assert_eq!(Call::decode(67, &with(&[], &[7, 0, 0, 1, 2])), Some(written));
        assert_eq!(Call::decode(67, &with(&[], &[0, 0])), None);
        assert_eq!(Call::decode(67, &with(&[], &[7, 0, 0, 1, 2, 0])), None);
        for bytes in [vec![], vec![30], vec![0; 8_193]] {
            assert_eq!(Call::decode(66, &bytes), Some(Call::ReadPlan { bytes }));
        }
        for unknown in [63, 74] {
            assert_eq!(Call::decode(unknown, &value), None);
        }
    }

    #[test]
    fn fields_of_workbooks() {
        let made = Call::MakePeriod { first: 1, last: 258 };
        assert_eq!(Call::decode(68, &[0, 0, 0, 1, 0, 0, 1, 2]), Some(made));
        assert_eq!(Call::decode(68, &[0; 7]), None);
        let floats: Vec<u8> = (1..=6u64).flat_map(u64::to_be_bytes).collect();
        let gap = Call::GapOfMedians { earlier: [1, 2, 3], later: [4, 5, 6] };
        assert_eq!(Call::decode(69, &floats), Some(gap));
        assert_eq!(Call::decode(69, &floats[..47]), None);
        let numbers: Vec<u8> = (-25..3i64).flat_map(i64::to_be_bytes).collect();
        let amounts = std::array::from_fn(|place| place as i64 - 25);
        let exported = Call::Export { amounts, period: [0, 1, 2] };
        assert_eq!(Call::decode(70, &numbers), Some(exported));
        assert_eq!(Call::decode(70, &numbers[..223]), None);
        for bytes in [vec![], vec![0], vec![0; 40_979]] {
            assert_eq!(Call::decode(73, &bytes), Some(Call::FillWorkbook { bytes }));
        }
    }

    #[test]
    fn fields_of_cells() {
        let cells: Vec<u8> = (0..28u8).flat_map(|i| [i % 3, 0, 0, 0, 0, 0, 0, 1, i]).collect();
        let Some(Call::ReadCells { cells: read }) = Call::decode(71, &cells) else { panic!() };
        assert_eq!((read[4].kind, read[4].bits), (1, 260));
        assert_eq!((read[27].kind, read[27].bits), (0, 283));
        assert_eq!(Call::decode(71, &cells[..251]), None);
        assert_eq!(Call::decode(71, &[&cells[..], &[0]].concat()), None);
        for place in [0, 9, 243] {
            let mut bad = cells.clone();
            bad[place] = 3;
            assert_eq!(Call::decode(71, &bad), None);
        }
        let printed = |kind| Call::decode(72, &[0, 0, 1, 2, kind, 0, 0, 0, 0, 0, 0, 0, 9]);
        let cell = CellBits { kind: 2, bits: 9 };
        assert_eq!(printed(2), Some(Call::PrintCell { index: 258, cell }));
        assert!(printed(0).is_some() && printed(3).is_none() && printed(255).is_none());
        assert_eq!(Call::decode(72, &[0; 12]), None);
    }

    #[test]
    fn an_empty_cell_does_not_look_at_its_bits() {
        let cell = |kind, bits| CellBits { kind, bits };
        assert_eq!(cell(0, 7).cell(), Cell::Empty);
        assert_eq!(cell(0, 7), cell(0, 0));
        assert!(cell(1, 7) != cell(1, 0) && cell(1, 7) != cell(2, 7));
        for kept in [cell(0, 0), cell(1, 1.5f64.to_bits()), cell(2, 61f64.to_bits())] {
            assert_eq!(CellBits::of(&kept.cell()), kept);
        }
    }
}
