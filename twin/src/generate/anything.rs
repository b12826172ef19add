//! Blocks of any calls on any values.

use super::Generator;
use crate::model::assessment::Row;
use crate::model::book::Book;
use crate::model::log::Slot;
use crate::model::settlement::Period;
use crate::model::year::Line;
use crate::script::{Call, YearFields};

impl Generator {
    pub fn any_work(&mut self) {
        for _ in 0..60 {
            let call = self.any_call();
            self.call_or_spell(call);
        }
    }

    /// A call, its cause now and then spelled where it may be left out.
    pub fn call_or_spell(&mut self, mut call: Call) {
        if let Some(spelled) = call.spells() {
            *spelled |= self.random.one_in(3);
        }
        self.call(call);
    }

    fn any_u32(&mut self) -> u32 {
        match self.random.below(4) {
            0 => self.random.edge_u32(),
            1 => self.random.next() as u32,
            2 => self.random.below(20_000) as u32,
            _ => self.random.minute(),
        }
    }

    fn any_i64(&mut self) -> i64 {
        match self.random.below(4) {
            0 => self.random.edge_i64(),
            1 => self.random.next() as i64,
            2 => self.random.bad_amount(),
            _ => self.random.fair_amount(),
        }
    }

    fn any_u16(&mut self) -> u16 {
        match self.random.below(3) {
            0 => self.random.next() as u16,
            1 => self.random.mw(),
            _ => self.random.fair_aic(),
        }
    }

    fn any_u8(&mut self) -> u8 {
        if self.random.one_in(4) {
            self.random.next() as u8
        } else {
            self.random.below(28) as u8
        }
    }

    fn any_u64(&mut self) -> u64 {
        match self.random.below(4) {
            0 => self.random.edge_u64(),
            1 => self.random.next(),
            _ => self.random.below(402),
        }
    }

    fn any_outage(&mut self) -> Slot {
        let (start, end, mw) = (self.any_u32(), self.any_u32(), self.any_u16());
        Slot { start, end, mw, cause: self.any_cause() }
    }

    fn any_cause(&mut self) -> u8 {
        if self.random.one_in(2) {
            1
        } else {
            self.any_u8()
        }
    }

    fn any_period(&mut self) -> Period {
        Period { first: self.any_u32() % 80_000, last: self.any_u32() }
    }

    fn any_row(&mut self) -> Row {
        Row {
            index: self.any_u32(),
            revenue: self.any_i64(),
            cap: self.any_i64(),
            floor: self.any_i64(),
            w: self.any_i64(),
        }
    }

    fn any_book(&mut self) -> Book {
        Book {
            regime_end: self.any_u32(),
            target_1: self.any_u32(),
            target_25: self.any_u32(),
            pcl: self.any_i64(),
            pfl: self.any_i64(),
            pcac: self.any_i64(),
            pcaf: self.any_i64(),
            orac: self.any_i64(),
            oraf: self.any_i64(),
            miss_factor: self.any_u16(),
        }
    }

    fn any_fields(&mut self) -> YearFields {
        YearFields {
            number: self.any_u8(),
            pppi: self.any_u32(),
            rate: self.any_u32(),
            aic: self.any_u16(),
            pyc: self.any_u16(),
            pyf: self.any_u16(),
            mark: self.random.one_in(2),
            w: self.any_i64(),
            line_count: self.any_u64(),
        }
    }

    fn any_bytes(&mut self) -> Vec<u8> {
        if self.random.one_in(2) {
            return self.some_return();
        }
        let length = self.random.below(40);
        (0..length).map(|_| self.random.next() as u8 % 16).collect()
    }

    fn any_call(&mut self) -> Call {
        let k = self.any_k();
        let year = self.any_u8();
        let (earlier, later) = if self.random.one_in(2) {
            self.random.periods()
        } else {
            (self.any_period(), self.any_period())
        };
        match self.random.below(50) {
            0 => Call::Empty { regime_end: self.any_u32() },
            1 => Call::enter(self.any_outage()),
            2 => Call::cancel(self.any_u32(), self.any_cause()),
            3 => Call::Lost { a: self.any_u32(), b: self.any_u32() },
            4 => Call::Minutes { year, regime_end: self.any_u32() },
            5 => Call::Availability { year },
            6 => Call::Target { year },
            7 => Call::Levels { k },
            8 => Call::Revenue { k },
            9 => Call::Assess { rows: std::array::from_fn(|_| self.any_row()) },
            10 => Call::Period,
            11 => Call::Gap { earlier, later },
            12 => Call::Growth { n: self.any_u32() },
            13 => Call::Pay { amount: self.any_i64(), n: self.random.hundredths() },
            14 => Call::Settle { adjustment: self.any_i64(), earlier, later },
            15 => Call::Reconcile {
                final_amount: self.any_i64(),
                provisional: self.any_i64(),
                earlier,
                later,
            },
            16 => Call::Read { k, bytes: self.any_bytes() },
            17 => Call::Write { k, room: self.some_room(k) },
            18 => Call::Refile { room: self.some_room(k), bytes: self.any_bytes() },
            19 => Call::Print { bytes: self.any_bytes() },
            20 => Call::set_slot(self.random.below(400) as u16, self.any_outage()),
            21 => Call::SetCount { count: self.any_u64(), regime_end: self.any_u32() },
            22 => Call::SetBook { book: self.any_book() },
            23 => Call::SetYear { k, fields: self.any_fields() },
            24 => {
                let line = Line { kind: year, currency: self.any_u8(), amount: self.any_i64() };
                Call::SetLine { k, slot: self.random.below(64) as u8, line }
            }
            25 | 26 => Call::FreshYear { k },
            27 => Call::YearLog { k },
            28 | 29 => Call::TakeLog { k },
            30 => Call::ShowBook,
            31 => Call::Empty { regime_end: self.random.fair_regime_end() },
            32 => Call::SetBook { book: self.random.fair_book(self.desk.log.regime_end) },
            33 => {
                let (mw, cause) = (self.random.mw(), self.random.cause());
                Call::enter(Slot { start: 5, end: 9, mw, cause })
            }
            34 => Call::Close { minute: self.any_closing() },
            35 => Call::SetClosed { minute: self.any_closing() },
            36..=39 => self.any_plan_call(),
            40..=43 => self.any_workbook_call(),
            _ => self.any_sheet_call(),
        }
    }

    fn any_closing(&mut self) -> u32 {
        if self.random.one_in(2) {
            self.any_u32()
        } else {
            self.closing_minute()
        }
    }

    fn any_sheet_call(&mut self) -> Call {
        let regime_end =
            if self.random.one_in(2) { self.any_u32() } else { self.random.fair_regime_end() };
        match self.random.below(7) {
            0 => {
                let bytes = self.random.next().to_be_bytes().repeat(self.random.below(9) as usize);
                Call::ReadSheet { regime_end, bytes }
            }
            1 => Call::ReadSheet { regime_end, bytes: self.some_sheet(regime_end) },
            2 => Call::ReadSheetKept { regime_end },
            3 => Call::WriteSheet { room: self.sheet_room() },
            4 => Call::Keep { bytes: self.some_sheet(regime_end) },
            5 => Call::PrintMinute { minute: self.any_u32() },
            _ => Call::print_outage(self.any_outage()),
        }
    }
}
