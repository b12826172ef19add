//! Blocks about old day sheets, and about the dates of minutes.

use std::collections::BTreeSet;

use super::logs::minute;
use super::random::Random;
use super::Generator;
use crate::model::calendar::{days_of_month, minute_of_date, MINUTES_OF_A_DAY};
use crate::model::log::{regime_end_in_range, Slot, LAST_REGIME_END, SLOTS};
use crate::model::sheet::{is_midnight, joined, pieces_of, write, Piece};
use crate::script::Call;

/// The bytes of a piece.
const PIECE: usize = 13;

/// The first midnight after a minute.
fn next_midnight(minute: i128) -> i128 {
    (minute / MINUTES_OF_A_DAY + 1) * MINUTES_OF_A_DAY
}

impl Random {
    /// A piece that may follow the last one; none where the regime ends. A last
    /// one with no MW stands for none.
    fn fair_piece(&mut self, last: Slot, regime_end: u32) -> Option<Piece> {
        let continued = last.mw > 0 && is_midnight(last.end) && !self.one_in(3);
        let from = last.end as i128;
        let gap = match self.below(5) {
            _ if continued => 0,
            0 | 1 => 0,
            2 => next_midnight(from) - from,
            3 => 1,
            _ => self.between(0, 3_000),
        };
        let start = from + gap;
        let most = next_midnight(start).min(regime_end as i128);
        if start >= most {
            return None;
        }
        let end = match self.below(4) {
            0 => start + 1,
            1 => self.between(start + 1, most),
            _ => most,
        };
        let same = continued || last.mw > 0 && self.one_in(2);
        let mw = if same { last.mw } else { self.fair_mw() };
        Some(Piece { continued, part: Slot { start: start as u32, end: end as u32, mw, cause: 1 } })
    }

    /// A piece at or past a limit beside the last one: not where it ended, not
    /// at a midnight, across one, before the last, inside it, of no length, at
    /// or past the regime end; marked or not, with this MW or another.
    fn edge_piece(&mut self, last: Slot, regime_end: u32) -> Piece {
        let (s, e) = (last.start as i128, last.end as i128);
        let (m, r, day) = (next_midnight(e), regime_end as i128, MINUTES_OF_A_DAY);
        let (last_day, far) = (r / day * day, u32::MAX as i128);
        let stretches = [
            // From the last one's end on.
            (e, m),
            (e, e + 1),
            (e, e),
            (e, e - 1),
            (e, 0),
            (e, m + 1),
            (e, e + day),
            (e, e + day + 1),
            (e, r),
            (e, r + 1),
            (e, far),
            // A minute off.
            (e - 1, e),
            (e - 1, e + 1),
            (e - 1, m),
            (e + 1, m),
            (e + 1, e + 1),
            // At the next midnight.
            (m, m + 1),
            (m, m + day),
            (m, m + day + 1),
            (m, m),
            (m - 1, m),
            (m - 1, m + 1),
            // Before the last one's start, at it and after it.
            (s - 1, s),
            (s - 1, s - 1),
            (s - 1, e),
            (s - 1, 0),
            (s, e),
            (s, s + 1),
            (s, s),
            (s + 1, e),
            (0, 1),
            (0, far),
            // At the regime end.
            (r - 1, r),
            (r - 1, r + 1),
            (r, r + 1),
            (r, r),
            (last_day, r),
            (last_day, r + 1),
            (r + day, r + day + 1),
            (far - 1, far),
            (far, far),
            (far, 0),
        ];
        let (start, end) = self.pick(&stretches);
        let mw = match self.below(6) {
            0 => last.mw ^ 1,
            1 => self.mw(),
            2 => self.pick(&[0, 1, 1_000, 1_001, 65_535]),
            _ => last.mw,
        };
        let part = Slot { start: minute(start), end: minute(end), mw, cause: 1 };
        Piece { continued: self.one_in(3), part }
    }

    /// Where the first piece of a sheet may start.
    fn first_minute_of_sheet(&mut self, regime_end: u32) -> u32 {
        let end = regime_end as i128;
        let start = match self.below(6) {
            0 => 0,
            1 => end - self.pick(&[1, 2, 1_440, 1_441, 5_000]),
            2 => end / MINUTES_OF_A_DAY * MINUTES_OF_A_DAY - self.pick(&[0, 1, 1_440]),
            3 => self.between(0, 8_000) * MINUTES_OF_A_DAY,
            _ => self.between(0, 12_000_000),
        };
        minute(start)
    }

    /// The last piece's part, or what stands for it where there is none.
    fn last_part(&mut self, pieces: &[Piece], regime_end: u32) -> Slot {
        match pieces.last() {
            Some(piece) => piece.part,
            None => {
                let start = self.first_minute_of_sheet(regime_end);
                Slot { start, end: start, mw: 0, cause: 1 }
            }
        }
    }

    /// So many pieces more, each of them fair, as far as the regime goes.
    fn add_fair(&mut self, pieces: &mut Vec<Piece>, count: u64, regime_end: u32) {
        for _ in 0..count {
            let last = self.last_part(pieces, regime_end);
            match self.fair_piece(last, regime_end) {
                Some(piece) => pieces.push(piece),
                None => return,
            }
        }
    }

    /// A piece more at a limit: with a bad MW, inside the last one, marked as
    /// its continuation wherever it ends, before its start, or any.
    fn add_edge(&mut self, pieces: &mut Vec<Piece>, regime_end: u32) {
        let last = self.last_part(pieces, regime_end);
        let mut piece = self.edge_piece(last, regime_end);
        match (self.below(8), self.fair_piece(last, regime_end)) {
            (0 | 1, Some(fair)) => {
                piece = fair;
                piece.part.mw = self.pick(&[0, 1_001, 65_535, 1, 1_000]);
            }
            (2 | 3, _) if last.start < last.end => {
                let (start, end) = (last.start as i128, last.end as i128);
                piece.continued = false;
                piece.part.start = self.between(start, end - 1) as u32;
                piece.part.end = self.pick(&[last.end, piece.part.start + 1]);
            }
            (4, _) => {
                let end = minute(next_midnight(last.end as i128));
                piece = Piece { continued: true, part: Slot { start: last.end, end, ..last } };
            }
            (5, _) => {
                let start = last.start.saturating_sub(1);
                piece.continued = false;
                piece.part =
                    Slot { start, end: self.pick(&[last.start, start]), mw: last.mw, cause: 1 };
            }
            _ => (),
        }
        pieces.push(piece);
    }

    /// A few pieces, with none, one or two of them at a limit.
    fn some_pieces(&mut self, regime_end: u32) -> Vec<Piece> {
        let mut pieces = Vec::new();
        let count = self.pick(&[0, 1, 2, 3, 6, 12, 25]);
        self.add_fair(&mut pieces, count, regime_end);
        for _ in 0..self.pick(&[0, 1, 1, 1, 2]) {
            self.add_edge(&mut pieces, regime_end);
        }
        if self.one_in(3) {
            self.add_fair(&mut pieces, 3, regime_end);
        }
        if !pieces.is_empty() && self.one_in(5) {
            let among = self.pick(&[1, pieces.len() as u64]);
            let place = self.below(among) as usize;
            pieces[place].continued = !pieces[place].continued;
        }
        pieces
    }

    /// Pieces of 399 to 401 outages, many of them over midnights, and some
    /// pieces behind them.
    fn full_pieces(&mut self, regime_end: u32) -> Vec<Piece> {
        let count = self.pick(&[399, 400, 400, 401]);
        let low = self.between(0, 12_000_000);
        let high = low + self.pick(&[1_000, 40_000, 400_000]);
        let mut pieces: Vec<Piece> =
            self.outages(count, low, high).iter().flat_map(pieces_of).collect();
        let more = self.below(3);
        self.add_fair(&mut pieces, more, regime_end);
        if self.one_in(2) {
            self.add_edge(&mut pieces, regime_end);
        }
        pieces
    }

    /// 400 outages that leave no minute free: to 13,632,480 the longest sheet,
    /// if none of them ends at a midnight.
    fn long_pieces(&mut self, regime_end: u32) -> Vec<Piece> {
        let some_at_midnight = self.one_in(3);
        let mut ends = BTreeSet::from([regime_end]);
        while ends.len() < SLOTS {
            let end = self.between(1, regime_end as i128 - 1);
            let at_midnight = some_at_midnight && self.one_in(4);
            let end = if at_midnight { next_midnight(end) } else { end } as u32;
            if end < regime_end && is_midnight(end) == at_midnight {
                ends.insert(end);
            }
        }
        let mut pieces = Vec::new();
        let mut start = 0;
        for end in ends {
            pieces.extend(pieces_of(&Slot { start, end, mw: self.fair_mw(), cause: 1 }));
            start = end;
        }
        pieces
    }

    /// Bytes changed, cut or too many, most of them in the head of a piece.
    fn damage_sheet(&mut self, mut bytes: Vec<u8>) -> Vec<u8> {
        if bytes.is_empty() {
            return vec![self.next() as u8; 1 + self.below(20) as usize];
        }
        let place = self.below(bytes.len() as u64) as usize;
        let head = place / PIECE * PIECE;
        match self.below(8) {
            0 | 1 => bytes.truncate(place),
            2 | 3 => bytes[head] = self.pick(&[0, 7, 19, 22, 255]),
            4 => bytes[head + 1] = self.pick(&[1, 10, 255]),
            5 => bytes[head + 2] = self.pick(&[0, 9, 11, 12]),
            6 => bytes[place] ^= 1 << self.below(8),
            _ => bytes.extend(vec![self.pick(&[0, 7, 20, 21]); self.pick(&[1, 2, 12, 13, 14])]),
        }
        bytes
    }

    /// A minute around a year's end, a month's end, a leap day or the end of
    /// the regime.
    fn dated_minute(&mut self) -> u32 {
        let (year, month) = (self.between(2019, 2044), self.between(1, 12));
        let near = self.between(-1, 1);
        let at = |month, day| minute_of_date(year, month, day).unwrap() + near;
        minute(match self.below(7) {
            0 => at(1, 1),
            1 => at(2, days_of_month(year, 2)),
            2 => at(2, 28) + MINUTES_OF_A_DAY,
            3 => at(month, 1),
            4 | 5 => LAST_REGIME_END as i128 + self.pick(&[-1, 0, 1, 1, 1_440]),
            _ => self.minute() as i128,
        })
    }
}

impl Generator {
    /// Day sheets read and written, logs written and read again, and minutes
    /// and outages printed.
    pub fn sheet_work(&mut self) {
        for _ in 0..12 {
            let regime_end = self.sheet_regime_end();
            let bytes = self.some_sheet(regime_end);
            self.read_sheet(regime_end, bytes);
            self.write_sheet();
            if self.random.one_in(3) {
                self.write_sheet();
            }
            if self.random.one_in(4) {
                self.log_call();
                self.log_call();
                self.write_sheet();
            }
        }
        if self.random.one_in(6) {
            self.long_sheet_work();
        }
        for _ in 0..3 {
            self.log_there_and_back();
        }
        for _ in 0..6 {
            self.print_call();
        }
    }

    /// A regime end for a sheet, one in ten of them bad.
    fn sheet_regime_end(&mut self) -> u32 {
        if self.random.one_in(10) {
            self.random.bad_regime_end()
        } else {
            self.random.fair_regime_end()
        }
    }

    /// A sheet, good or with something at a limit.
    pub fn some_sheet(&mut self, regime_end: u32) -> Vec<u8> {
        let fair = regime_end_in_range(regime_end);
        let regime_end = if fair { regime_end } else { LAST_REGIME_END };
        let full = self.random.one_in(5);
        let pieces = if full {
            self.random.full_pieces(regime_end)
        } else {
            self.random.some_pieces(regime_end)
        };
        let bytes = joined(&pieces);
        if self.random.one_in(6) {
            self.random.damage_sheet(bytes)
        } else {
            bytes
        }
    }

    /// A sheet that `oldsheet` prints, one in twenty of them long.
    pub fn printed_sheet(&mut self) -> Vec<u8> {
        if self.random.one_in(20) {
            self.long_sheet()
        } else {
            self.some_sheet(LAST_REGIME_END)
        }
    }

    /// The longest sheet to the last regime end or one nearly as long, with a
    /// piece too many or without.
    pub fn long_sheet(&mut self) -> Vec<u8> {
        let mut pieces = self.random.long_pieces(LAST_REGIME_END);
        self.change_long(&mut pieces, LAST_REGIME_END);
        joined(&pieces)
    }

    /// A piece more behind a long sheet, one of its pieces changed, or neither.
    fn change_long(&mut self, pieces: &mut Vec<Piece>, regime_end: u32) {
        match self.random.below(4) {
            0 => self.random.add_edge(pieces, regime_end),
            1 => {
                let count = pieces.len() as u64;
                let place = (count - 1 - self.random.below(count / 2)) as usize;
                let last = pieces[place - 1].part;
                pieces[place] = self.random.edge_piece(last, regime_end);
            }
            _ => (),
        }
    }

    /// Reads a sheet, in one call or through the kept bytes.
    pub fn read_sheet(&mut self, regime_end: u32, bytes: Vec<u8>) {
        if bytes.len() > 60_000 || self.random.one_in(2) {
            self.keep_all(&bytes);
            self.call(Call::ReadSheetKept { regime_end });
        } else {
            self.call(Call::ReadSheet { regime_end, bytes });
        }
    }

    /// Writes the log that stands, and shows it where it is short.
    pub fn write_sheet(&mut self) {
        let room = self.sheet_room();
        self.call(Call::WriteSheet { room });
        if room <= 200 && self.random.one_in(3) {
            self.call(Call::ShowSheet { room: room as u16 });
        }
    }

    /// Room for the log's sheet, now and then all that can be lent or more.
    pub fn sheet_room(&mut self) -> u32 {
        let length = match write(&self.desk.log, usize::MAX) {
            Ok(bytes) => bytes.len() as u32,
            Err(_) => self.random.below(100) as u32,
        };
        if self.random.one_in(300) {
            return self.random.pick(&[65_536, 262_144, 262_145, u32::MAX]);
        }
        self.random.room_for(length)
    }

    /// More than 65,535 bytes, read and written.
    fn long_sheet_work(&mut self) {
        let regime_end =
            if self.random.one_in(2) { LAST_REGIME_END } else { self.random.fair_regime_end() };
        let mut pieces = self.random.long_pieces(regime_end);
        self.change_long(&mut pieces, regime_end);
        self.read_sheet(regime_end, joined(&pieces));
        self.write_sheet();
    }

    /// A log entered, written and read back: to its own regime end, and to
    /// another; then broken and written.
    fn log_there_and_back(&mut self) {
        let regime_end = self.random.fair_regime_end();
        let count = self.random.pick(&[0, 1, 2, 5, 12]);
        let low = self.random.pick(&[0, 1_439, 12_540_000, regime_end as i128 - 40_000]);
        let mut outages = self.random.outages(count, low, low + 39_000);
        if let (Some(last), true) = (outages.last_mut(), self.random.one_in(3)) {
            last.end = regime_end.min(last.end + 100_000);
        }
        self.put_log(&outages, regime_end);
        self.write_sheet();
        if self.random.one_in(3) {
            self.close_log();
            self.write_sheet();
        }
        let bytes = write(&self.desk.log, usize::MAX).unwrap_or_default();
        self.read_sheet(regime_end, bytes.clone());
        self.write_sheet();
        if self.random.one_in(2) {
            let other = self.sheet_regime_end();
            self.read_sheet(other, bytes);
        }
        let held = self.desk.log.count as usize;
        self.break_log(held);
        self.write_sheet();
    }

    fn print_call(&mut self) {
        let minute = self.random.dated_minute();
        if self.random.one_in(2) {
            return self.call(Call::PrintMinute { minute });
        }
        let end = if self.random.one_in(3) { self.random.dated_minute() } else { minute };
        let mw = self.random.pick(&[0, 1, 9, 10, 99, 100, 999, 1_000, 1_001, 9_999, 65_535]);
        let cause = self.random.pick(&[1, 1, 1, 1, 1, 1, 0, 2, 9, 10, 99, 100, 255]);
        self.call_or_spell(Call::print_outage(Slot { start: minute, end, mw, cause }));
    }
}
