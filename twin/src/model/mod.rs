//! A model of docs/RULES.md.
//!
//! Amounts, minutes and energies are worked out in `i128`, wide enough for
//! anything that the records can hold. A call that can be refused gives
//! `Err` with the refusal's number (rule 12.1).

pub mod assessment;
pub mod big;
pub mod book;
pub mod calendar;
pub mod dates;
pub mod daysheet;
pub mod filling;
pub mod growth;
pub mod levels;
pub mod log;
pub mod oldsheet;
pub mod plan;
pub mod revenue;
pub mod rounding;
pub mod settlement;
pub mod sheet;
pub mod sums;
pub mod workbook;
pub mod year;
pub mod yearly_return;

#[cfg(test)]
mod figures;

/// A refusal's number, 1 to 20.
pub type Refusal = u8;

/// 10^9, the limit of amounts and levels.
pub const AMOUNT_LIMIT: i128 = 1_000_000_000;

/// 10^10, the limit of balances and of what is settled.
pub const BALANCE_LIMIT: i128 = 10_000_000_000;
