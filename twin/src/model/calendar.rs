//! Dates, minutes and day numbers.

use super::Refusal;

pub const MINUTES_OF_A_DAY: i128 = 1_440;

/// The leap-year rule (rule 2.1).
pub fn is_leap(year: i128) -> bool {
    year % 4 == 0 && (year % 100 != 0 || year % 400 == 0)
}

/// How many years before this one have a leap day: each fourth, but of the
/// centuries only each fourth.
fn leap_years_before(year: i128) -> i128 {
    let last = year - 1;
    last / 4 - last / 100 + last / 400
}

pub fn days_of_month(year: i128, month: i128) -> i128 {
    match month {
        4 | 6 | 9 | 11 => 30,
        2 if is_leap(year) => 29,
        2 => 28,
        _ => 31,
    }
}

pub fn days_of_year(year: i128) -> i128 {
    if is_leap(year) {
        366
    } else {
        365
    }
}

/// Days from 1 January 1900 to a date; none where there is no such date, or
/// where it lies before 1900.
pub fn days_since_1900(year: i128, month: i128, day: i128) -> Option<i128> {
    let known = (1900..=9999).contains(&year)
        && (1..=12).contains(&month)
        && day >= 1
        && day <= days_of_month(year, month);
    if !known {
        return None;
    }
    let years = 365 * (year - 1900) + leap_years_before(year) - leap_years_before(1900);
    let months: i128 = (1..month).map(|m| days_of_month(year, m)).sum();
    Some(years + months + day - 1)
}

/// The date so many days after 1 January 1900.
pub fn date_after_1900(days: i128) -> (i128, i128, i128) {
    let (mut year, mut month, mut left) = (1900, 1, days);
    while left >= days_of_year(year) {
        left -= days_of_year(year);
        year += 1;
    }
    while left >= days_of_month(year, month) {
        left -= days_of_month(year, month);
        month += 1;
    }
    (year, month, left + 1)
}

/// 31 January 2019, the day of minute 0 (rule 1.4).
fn first_day() -> i128 {
    days_since_1900(2019, 1, 31).unwrap()
}

/// The minute at which a day begins.
pub fn minute_of_date(year: i128, month: i128, day: i128) -> Option<i128> {
    Some((days_since_1900(year, month, day)? - first_day()) * MINUTES_OF_A_DAY)
}

/// The date, hour and minute of a minute.
pub fn date_of_minute(minute: i128) -> (i128, i128, i128, i128, i128) {
    let (year, month, day) = date_after_1900(first_day() + minute / MINUTES_OF_A_DAY);
    let rest = minute % MINUTES_OF_A_DAY;
    (year, month, day, rest / 60, rest % 60)
}

/// A date's spreadsheet day number; 61 is 1 March 1900, and earlier dates
/// have none (rule 9.1).
pub fn day_number(year: i128, month: i128, day: i128) -> Option<i128> {
    let since_march = days_since_1900(year, month, day)? - days_since_1900(1900, 3, 1)?;
    if since_march < 0 {
        None
    } else {
        Some(since_march + 61)
    }
}

/// First minute of a Relevant Year, 1 to 25 (rule 2.1).
fn first_minute(number: i128) -> i128 {
    if number == 1 {
        0
    } else {
        minute_of_date(2018 + number, 1, 1).unwrap()
    }
}

/// A year's first minute and its end; year 25 ends at the regime end.
pub fn year_minutes(number: u8, regime_end: u32) -> Result<(i128, i128), Refusal> {
    let year = number as i128;
    match number {
        1..=24 => Ok((first_minute(year), first_minute(year + 1))),
        25 => Ok((first_minute(year), regime_end as i128)),
        _ => Err(9),
    }
}

/// The year ends by a regime end, in order of the years (rule 2.2).
pub fn year_ends(regime_end: u32) -> impl Iterator<Item = i128> {
    (1..=25).map(move |number| year_minutes(number, regime_end).unwrap().1)
}

/// Whether a year ends at this minute.
pub fn is_year_end(minute: u32, regime_end: u32) -> bool {
    year_ends(regime_end).any(|end| end == minute as i128)
}

#[cfg(test)]
mod tests {
    use super::*;

    #[test]
    fn years_begin_where_the_document_says() {
        assert_eq!(year_minutes(1, 0), Ok((0, 482_400)));
        assert_eq!(year_minutes(2, 0), Ok((482_400, 1_009_440)));
        assert_eq!(year_minutes(3, 0).unwrap().0, 1_009_440);
        assert_eq!(year_minutes(25, 7), Ok((12_579_840, 7)));
        assert_eq!(year_minutes(24, 0).unwrap().1, 12_579_840);
        assert_eq!(year_minutes(0, 0), Err(9));
        assert_eq!(year_minutes(26, 0), Err(9));
        assert_eq!(minute_of_date(2045, 1, 1), Some(13_632_480));
    }

    #[test]
    fn year_ends_are_the_starts_of_the_next_and_the_regime_end() {
        let ends: Vec<i128> = year_ends(13_000_000).collect();
        assert_eq!(ends.len(), 25);
        assert_eq!((ends[0], ends[1]), (482_400, 1_009_440));
        assert_eq!((ends[23], ends[24]), (12_579_840, 13_000_000));
        for number in 2..=25 {
            let (first, _) = year_minutes(number, 13_000_000).unwrap();
            assert!(is_year_end(first as u32, 13_000_000));
            assert!(!is_year_end(first as u32 - 1, 13_000_000));
            assert!(!is_year_end(first as u32 + 1, 13_000_000));
        }
        assert!(!is_year_end(0, 13_000_000) && !is_year_end(u32::MAX, 13_000_000));
        assert!(is_year_end(13_000_000, 13_000_000) && !is_year_end(13_632_480, 13_000_000));
        assert!(is_year_end(12_579_841, 12_579_841) && is_year_end(12_579_840, 12_579_841));
    }

    #[test]
    fn a_century_has_a_leap_day_where_400_divides_it() {
        assert!(!is_leap(1900) && is_leap(2000) && !is_leap(2100));
        assert!(is_leap(2096) && !is_leap(2097) && is_leap(2104));
        assert_eq!(days_since_1900(1901, 1, 1), Some(365));
        for year in 1900..9999 {
            let days = |year| days_since_1900(year, 1, 1).unwrap();
            assert_eq!(days(year + 1) - days(year), days_of_year(year), "{year}");
        }
    }

    #[test]
    fn day_numbers_are_the_spreadsheets() {
        assert_eq!(day_number(1900, 3, 1), Some(61));
        assert_eq!(day_number(1900, 2, 28), None);
        assert_eq!(day_number(2099, 12, 31), Some(73_050));
        assert_eq!(day_number(2023, 1, 1), Some(44_927));
        assert_eq!(day_number(2023, 2, 29), None);
    }

    #[test]
    fn dates_go_there_and_back() {
        for minute in [0, 1, 1_439, 1_440, 482_399, 482_400, 13_632_480] {
            let (year, month, day, hour, rest) = date_of_minute(minute);
            assert_eq!(minute_of_date(year, month, day).unwrap() + hour * 60 + rest, minute);
        }
        assert_eq!(date_of_minute(482_399), (2019, 12, 31, 23, 59));
    }
}
