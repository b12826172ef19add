//! A year and its revenue lines (rules 7.1 to 7.3).

use super::log::Log;
use super::AMOUNT_LIMIT;

pub const LINES: usize = 64;
pub const EURO: u8 = 1;

#[derive(Clone, Copy, Debug, Default, PartialEq, Eq)]
pub struct Line {
    pub kind: u8,
    pub currency: u8,
    pub amount: i64,
}

#[derive(Clone, Debug, PartialEq, Eq)]
pub struct Year {
    pub number: u8,
    pub pppi: u32,
    pub rate: u32,
    pub aic: u16,
    pub pyc: u16,
    pub pyf: u16,
    pub lines: [Line; LINES],
    pub line_count: u64,
    /// An Exceptional Event is marked.
    pub mark: bool,
    /// The within-period adjustment.
    pub w: i64,
    /// Serves reading, writing and printing alone.
    pub log: Log,
}

pub fn number_in_range(number: u8) -> bool {
    (1..=25).contains(&number)
}

pub fn pppi_in_range(pppi: u32) -> bool {
    (5_000..=50_000).contains(&pppi)
}

pub fn rate_in_range(rate: u32) -> bool {
    (1..=200_000).contains(&rate)
}

pub fn aic_in_range(aic: u16) -> bool {
    aic <= 20_000
}

pub fn part_year_in_range(factor: u16) -> bool {
    factor <= 10_000
}

/// A yearly amount of either sign.
pub fn amount_in_range(amount: i64) -> bool {
    (amount as i128).abs() <= AMOUNT_LIMIT
}

impl Line {
    pub fn in_range(&self) -> bool {
        let sign_allowed = match self.kind {
            1 | 3 | 4 | 5 | 6 => self.amount >= 0,
            2 | 7..=11 => true,
            _ => return false,
        };
        sign_allowed && self.currency <= EURO && amount_in_range(self.amount)
    }
}

impl Year {
    pub fn fresh() -> Year {
        Year {
            number: 1,
            pppi: 10_000,
            rate: 100_000,
            aic: 10_000,
            pyc: 10_000,
            pyf: 10_000,
            lines: [Line::default(); LINES],
            line_count: 0,
            mark: false,
            w: 0,
            log: Log::fresh(),
        }
    }

    /// Every field but the log inside the year.
    pub fn in_range(&self) -> bool {
        number_in_range(self.number)
            && pppi_in_range(self.pppi)
            && rate_in_range(self.rate)
            && aic_in_range(self.aic)
            && part_year_in_range(self.pyc)
            && part_year_in_range(self.pyf)
            && amount_in_range(self.w)
            && self.lines_in_range()
    }

    fn lines_in_range(&self) -> bool {
        if self.line_count > LINES as u64 {
            return false;
        }
        let (held, free) = self.lines.split_at(self.line_count as usize);
        held.iter().all(Line::in_range) && free.iter().all(|line| *line == Line::default())
    }

    /// The lines held. Only of a year in range.
    pub fn held_lines(&self) -> &[Line] {
        &self.lines[..self.line_count as usize]
    }
}

#[cfg(test)]
mod tests {
    use super::*;

    #[test]
    fn limits_on_both_sides() {
        let allowed = |allowed: bool, change: &dyn Fn(&mut Year)| {
            let mut year = Year::fresh();
            change(&mut year);
            assert_eq!(year.in_range(), allowed);
        };
        allowed(true, &|_| ());
        allowed(false, &|y| y.number = 0);
        allowed(true, &|y| y.number = 25);
        allowed(false, &|y| y.number = 26);
        allowed(false, &|y| y.pppi = 4_999);
        allowed(true, &|y| y.pppi = 5_000);
        allowed(true, &|y| y.pppi = 50_000);
        allowed(false, &|y| y.pppi = 50_001);
        allowed(false, &|y| y.rate = 0);
        allowed(true, &|y| y.rate = 1);
        allowed(true, &|y| y.rate = 200_000);
        allowed(false, &|y| y.rate = 200_001);
        allowed(true, &|y| y.aic = 20_000);
        allowed(false, &|y| y.aic = 20_001);
        allowed(true, &|y| y.pyc = 0);
        allowed(false, &|y| y.pyc = 10_001);
        allowed(false, &|y| y.pyf = 10_001);
        allowed(true, &|y| y.w = -1_000_000_000);
        allowed(false, &|y| y.w = -1_000_000_001);
        allowed(false, &|y| y.w = 1_000_000_001);
        allowed(false, &|y| y.w = i64::MIN);
        allowed(false, &|y| y.line_count = 1);
        allowed(false, &|y| y.line_count = 65);
        allowed(false, &|y| y.line_count = u64::MAX);
        allowed(false, &|y| y.lines[63].amount = 1);
        allowed(false, &|y| y.lines[0].currency = 1);
        allowed(true, &|y| y.log.count = 999);
    }

    #[test]
    fn lines_on_both_sides() {
        let allowed = |kind, currency, amount| Line { kind, currency, amount }.in_range();
        assert!(!allowed(0, 0, 0));
        assert!(!allowed(12, 0, 0));
        assert!(!allowed(1, 2, 0));
        for kind in 1..=11 {
            assert!(allowed(kind, 0, 0));
            assert!(allowed(kind, 1, 1_000_000_000));
            assert!(!allowed(kind, 1, 1_000_000_001));
            assert!(!allowed(kind, 0, i64::MIN));
            assert_eq!(allowed(kind, 0, -1), ![1, 3, 4, 5, 6].contains(&kind));
            assert_eq!(allowed(kind, 0, -1_000_000_000), ![1, 3, 4, 5, 6].contains(&kind));
            assert!(!allowed(kind, 0, -1_000_000_001));
        }
    }
}
