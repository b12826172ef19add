//! Dates and times as text (rules, section 16).

use super::calendar::date_of_minute;
use super::log::{Slot, LAST_REGIME_END, USUAL_CAUSE};
use super::Refusal;

/// The date and time of a minute, such as 2024-03-30 23:30 (rule 16.1); one
/// past the last regime end is 7 (rule 16.3).
pub fn minute_text(minute: u32) -> Result<String, Refusal> {
    if minute > LAST_REGIME_END {
        return Err(7);
    }
    let (year, month, day, hour, rest) = date_of_minute(minute as i128);
    Ok(format!("{year:04}-{month:02}-{day:02} {hour:02}:{rest:02}"))
}

/// The line of an outage: its start, its end, its MW, and its cause where that
/// is not the usual one (rule 16.2).
pub fn outage_text(outage: &Slot) -> Result<String, Refusal> {
    let (start, end) = (minute_text(outage.start)?, minute_text(outage.end)?);
    let cause = match outage.cause {
        USUAL_CAUSE => String::new(),
        cause => format!(" {cause}"),
    };
    Ok(format!("{start} {end} {}{cause}\n", outage.mw))
}

#[cfg(test)]
mod tests {
    use super::*;

    #[test]
    fn minutes_as_text() {
        let text = |minute| minute_text(minute).unwrap();
        assert_eq!(text(0), "2019-01-31 00:00");
        assert_eq!(text(1_439), "2019-01-31 23:59");
        assert_eq!(text(1_440), "2019-02-01 00:00");
        assert_eq!(text(482_399), "2019-12-31 23:59");
        assert_eq!(text(482_400), "2020-01-01 00:00");
        // 59 days after 1 January 2020, and after 1 January 2021.
        assert_eq!(text(482_400 + 59 * 1_440), "2020-02-29 00:00");
        assert_eq!(text(1_009_440 + 59 * 1_440 - 1), "2021-02-28 23:59");
        assert_eq!(text(1_009_440 + 59 * 1_440), "2021-03-01 00:00");
        assert_eq!(text(13_632_480), "2045-01-01 00:00");
        assert_eq!(minute_text(13_632_481), Err(7));
        assert_eq!(minute_text(u32::MAX), Err(7));
    }

    #[test]
    fn lines_of_outages() {
        let line = |start, end, mw| outage_text(&Slot { start, end, mw, cause: 1 });
        assert_eq!(
            line(2_715_810, 2_715_930, 500).unwrap(),
            "2024-03-30 23:30 2024-03-31 01:30 500\n"
        );
        assert_eq!(line(0, 0, 0).unwrap(), "2019-01-31 00:00 2019-01-31 00:00 0\n");
        assert_eq!(line(13_632_480, 13_632_480, 65_535).unwrap().len(), 40);
        let by = |cause| outage_text(&Slot { start: 0, end: 0, mw: 500, cause }).unwrap();
        for cause in [0, 2, 255] {
            assert_eq!(by(cause), format!("2019-01-31 00:00 2019-01-31 00:00 500 {cause}\n"));
        }
        assert_eq!(line(13_632_481, 0, 1), Err(7));
        assert_eq!(line(0, 13_632_481, 1), Err(7));
    }
}
