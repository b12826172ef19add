//! The text that `daysheet` prints (rules, section 11).

use super::calendar::year_minutes;
use super::log::LAST_REGIME_END;
use super::revenue::assessed_revenue;
use super::year::Year;
use super::yearly_return::read;
use super::Refusal;

fn sheet(year: &Year) -> Result<String, Refusal> {
    let revenue = assessed_revenue(year)?;
    let (first, end) = year_minutes(year.number, LAST_REGIME_END)?;
    let lost = year.log.lost_between(first, end);
    let carried = year.log.lost_between(end, LAST_REGIME_END as i128);
    let number = year.number;
    Ok(format!("year {number}\nlost {lost}\ncarried {carried}\nrevenue {revenue}\n"))
}

/// Of a return's bytes; a refusal, of the reading or of the revenue, is one
/// line.
pub fn text(bytes: &[u8]) -> String {
    let answer = read(bytes).map_err(|_place| 13).and_then(|year| sheet(&year));
    answer.unwrap_or_else(|refusal| format!("refused {refusal}\n"))
}

#[cfg(test)]
mod tests {
    use super::*;
    use crate::model::log::Slot;
    use crate::model::year::Line;
    use crate::model::yearly_return::write;

    fn example() -> Year {
        let mut year = Year { number: 2, ..Year::fresh() };
        year.log.hold(&[Slot { start: 1_009_380, end: 1_009_500, mw: 500, cause: 1 }]);
        year.lines[0] = Line { kind: 1, currency: 0, amount: 1_000_000 };
        year.lines[1] = Line { kind: 8, currency: 0, amount: 2_500 };
        year.line_count = 2;
        year
    }

    #[test]
    fn the_example() {
        let bytes = write(&example(), 8_192).unwrap();
        assert_eq!(text(&bytes), "year 2\nlost 30000\ncarried 30000\nrevenue 997500\n");
    }

    #[test]
    fn refusals() {
        assert_eq!(text(&[]), "refused 13\n");
        let mut year = example();
        year.lines[0] = Line { kind: 10, currency: 0, amount: -1_000_000_000 };
        assert_eq!(text(&write(&year, 8_192).unwrap()), "refused 11\n");
        year.lines[1].amount = 0;
        let bytes = write(&year, 8_192).unwrap();
        assert!(text(&bytes).ends_with("revenue -1000000000\n"));
    }

    #[test]
    fn the_last_year_carries_nothing() {
        let mut year = Year { number: 25, ..Year::fresh() };
        year.log.hold(&[Slot { start: 12_579_840, end: 13_632_480, mw: 1_000, cause: 1 }]);
        let bytes = write(&year, 8_192).unwrap();
        assert_eq!(text(&bytes), "year 25\nlost 1052640000\ncarried 0\nrevenue 0\n");
    }
}
