//! Answer lines in readable form.

use crate::floats::{cell_words, float_words};
use crate::model::workbook::{AMOUNTS, CELLS};
use crate::script::{Call, CellBits};
use crate::words::time_words;

/// What a refusal's number says of a call (rule 12.1).
pub fn refusal_words(call: &Call, number: i128) -> &'static str {
    if let (Call::ReadSheet { .. } | Call::ReadSheetKept { .. }, 4) = (call, number) {
        return "shares a minute with an entry";
    }
    match number {
        1 => "the log breaks a rule",
        2 => "start not below end, or end past the regime end",
        3 => "MW outside 1 to 1,000, or cause 0",
        4 => "a minute would lose more than 1,000 MW",
        5 => "400 entries held",
        6 => "no entry has that start and cause",
        7 => "stretch reversed, or a minute past the regime end",
        8 => "a book entry or regime end out of range, or book and log differ in regime end",
        9 => {
            "year number, index, rate, factor, line or amount out of range, or a closing back or \
             at no year end"
        }
        10 => "floor balance above cap balance",
        11 => {
            "above 10^9, or a balance or what is settled above 10^10, or an exported adjustment \
             above 3 x 10^10"
        }
        12 => {
            "day number out of range or not whole, period reversed, a median not that of its \
             days, or n not 0 to 499"
        }
        13 => "return, day sheet, plan or input of a workbook malformed",
        14 => "no room for the written return, day sheet or plan",
        15 => "a piece of a day sheet that does not fit",
        16 => "starts in closed time",
        17 => {
            "the plan's count is not 1 to 400, its step is 0, or its window is longer than its step"
        }
        18 => "a bad cell of a workbook",
        19 => "start and cause are held already",
        20 => "an overlap or a cause other than 1 on a day sheet",
        _ => "no such refusal",
    }
}

fn entries(count: i128) -> String {
    if count == 1 {
        "1 entry".to_string()
    } else {
        format!("{count} entries")
    }
}

fn closed_words(closed: i128) -> String {
    if closed == 0 {
        "all open".to_string()
    } else {
        format!("closed up to {}", time_words(closed))
    }
}

/// A log's count, regime end, closed minute and every slot that is not zero.
fn log_words(numbers: &[i128]) -> Option<String> {
    let [count, regime_end, closed] = numbers.get(..3)? else { return None };
    let (end, closed) = (time_words(*regime_end), closed_words(*closed));
    let mut words = format!("{}, regime end {end}, {closed}", entries(*count));
    for (slot, outage) in numbers[3..].chunks(4).enumerate() {
        if let [start, end, mw, cause] = outage {
            if [*start, *end, *mw, *cause] != [0, 0, 0, 0] {
                let (start, end) = (time_words(*start), time_words(*end));
                words += &format!("; slot {slot}: {start} to {end}, {mw} MW{}", by_cause(*cause));
            }
        }
    }
    Some(words)
}

/// A cause behind MW, where it is not 1.
fn by_cause(cause: i128) -> String {
    if cause == 1 {
        String::new()
    } else {
        format!(", cause {cause}")
    }
}

fn year_words(numbers: &[i128]) -> Option<String> {
    let (head, rest) = (numbers.get(..9)?, numbers.get(9..)?);
    let mut words = format!(
        "year {}, PPPI {}, rate {}, AIC {}, PYC {}, PYF {}, line count {}, {}, W {}",
        head[0],
        head[1],
        head[2],
        head[3],
        head[4],
        head[5],
        head[6],
        if head[7] == 1 { "marked" } else { "no mark" },
        head[8],
    );
    for (slot, line) in rest.get(..192)?.chunks(3).enumerate() {
        if line != [0, 0, 0] {
            let (kind, currency, amount) = (line[0], line[1], line[2]);
            words += &format!("; line {slot}: kind {kind}, currency {currency}, {amount}");
        }
    }
    Some(format!("{words}; log: {}", log_words(rest.get(192..)?)?))
}

fn book_words(numbers: &[i128]) -> Option<String> {
    let [end, target_1, target_25, pcl, pfl, pcac, pcaf, orac, oraf, factor] = numbers[..] else {
        return None;
    };
    let end = time_words(end);
    Some(format!(
        "regime end {end}, targets {target_1} and {target_25} MWh, PCL {pcl}, PFL {pfl}, \
         PCAC {pcac}, PCAF {pcaf}, ORAC {orac}, ORAF {oraf}, factor on a miss {factor}"
    ))
}

/// A plan as it was read.
fn plan_words(numbers: &[i128]) -> Option<String> {
    let [start, length, step, count, mw, cause] = numbers[..] else { return None };
    let (start, cause) = (time_words(start), by_cause(cause));
    Some(format!(
        "from {start} on, {length} minutes every {step} days, {count} times, {mw} MW{cause}"
    ))
}

/// The bits of a float in words.
fn bits_words(number: &i128) -> Option<String> {
    Some(float_words(u64::try_from(*number).ok()?))
}

/// The three floats of a workbook's period.
fn days_words(numbers: &[i128]) -> Option<String> {
    let [first, last, median] = numbers else { return None };
    let (first, last) = (bits_words(first)?, bits_words(last)?);
    Some(format!("first day {first}, last day {last}, median {}", bits_words(median)?))
}

/// The cells of a workbook, each by its kind and its bits.
fn cells_words(numbers: &[i128]) -> Option<String> {
    if numbers.len() != 2 * CELLS {
        return None;
    }
    let words = numbers.chunks(2).map(|pair| {
        let (kind, bits) = (u8::try_from(pair[0]).ok()?, u64::try_from(pair[1]).ok()?);
        (kind <= 2).then(|| cell_words(&CellBits { kind, bits }))
    });
    Some(words.collect::<Option<Vec<_>>>()?.join(", "))
}

/// The amounts and the period of cells that were read.
fn read_words(numbers: &[i128]) -> Option<String> {
    let (amounts, days) = numbers.split_at_checked(AMOUNTS)?;
    let amounts: Vec<String> = amounts.iter().map(i128::to_string).collect();
    Some(format!("amounts {}, {}", amounts.join(" "), days_words(days)?))
}

/// A call's figures where it is accepted.
fn figure_words(call: &Call, figures: &[i128]) -> Option<String> {
    let first = figures.first().copied();
    Some(match call {
        Call::Empty { .. } | Call::Enter { .. } | Call::Cancel { .. } | Call::Close { .. } => {
            format!("accepted, {}", entries(first?))
        }
        Call::Lost { .. } | Call::Availability { .. } => format!("{} MW-minutes", first?),
        Call::Minutes { .. } => {
            format!("{} to {}", time_words(first?), time_words(*figures.get(1)?))
        }
        Call::Target { .. } => (if first? == 1 { "met" } else { "not met" }).to_string(),
        Call::Levels { .. } => format!("cap {}, floor {}", first?, figures.get(1)?),
        Call::Assess { .. } | Call::Period => {
            let [a, c, f, w, t, adjustment] = figures[..] else { return None };
            format!("A {a}, C {c}, F {f}, W {w}, T {t}, adjustment {adjustment}")
        }
        Call::Gap { .. } | Call::GapOfMedians { .. } => format!("n = {}", first?),
        Call::Growth { .. } => format!("entry {}", first?),
        Call::Revenue { .. } | Call::Pay { .. } | Call::Settle { .. } | Call::Reconcile { .. } => {
            format!("{} pounds", first?)
        }
        Call::Read { .. } | Call::ReadKept { .. } => {
            format!("accepted, year sum {}", figures.get(1)?)
        }
        Call::ReadSheet { .. } | Call::ReadSheetKept { .. } | Call::EnterPlan { .. } => {
            format!("accepted, {}", entries(*figures.get(1)?))
        }
        Call::ListPlan { .. } => format!("lists {}", entries(*figures.get(1)?)),
        Call::ReadPlan { .. } => plan_words(figures.get(1..)?)?,
        Call::Write { .. }
        | Call::Refile { .. }
        | Call::RefileKept { .. }
        | Call::WriteSheet { .. }
        | Call::WritePlan { .. } => {
            format!("{} bytes, buffer sum {}", first?, figures.get(1)?)
        }
        Call::Print { .. }
        | Call::PrintMinute { .. }
        | Call::PrintOutage { .. }
        | Call::PrintCell { .. } => {
            format!("text of {} bytes, sum {}", first?, figures.get(1)?)
        }
        Call::MakePeriod { .. } => days_words(figures)?,
        Call::Export { .. } | Call::FillWorkbook { .. } => cells_words(figures)?,
        Call::ReadCells { .. } => read_words(figures.get(1..)?)?,
        _ => "done".to_string(),
    })
}

fn words_of_numbers(call: &Call, numbers: &[i128]) -> Option<String> {
    match call {
        Call::ShowLog => return log_words(numbers),
        Call::ShowYear { .. } => return year_words(numbers),
        Call::ShowBook => return book_words(numbers),
        _ => (),
    }
    let (number, figures) = numbers.split_first()?;
    if let (Call::ShowWrite { .. } | Call::ShowSheet { .. }, 0) = (call, *number) {
        let (length, bytes) = figures.split_first()?;
        let written = bytes.get(..usize::try_from(*length).ok()?)?;
        let digits: String = written.iter().map(|byte| format!("{byte:02x}")).collect();
        return Some(format!("{length} bytes: {digits}"));
    }
    if *number == 0 {
        return figure_words(call, figures);
    }
    let place = match call {
        Call::Read { .. }
        | Call::ReadKept { .. }
        | Call::ReadSheet { .. }
        | Call::ReadSheetKept { .. }
        | Call::ReadPlan { .. } => format!(" at place {}", figures.first()?),
        Call::ListPlan { .. } | Call::EnterPlan { .. } if *figures.first()? > 0 => {
            format!(" at outage {}", figures[0])
        }
        Call::ReadCells { .. } => format!(" at cell {}", figures.first()?),
        _ => String::new(),
    };
    Some(format!("refused {number}{place}: {}", refusal_words(call, *number)))
}

/// An answer line in readable form; one that does not fit the call as it is.
pub fn answer_words(call: &Call, answer: &str) -> String {
    if let Some(place) = answer.strip_prefix("malformed ") {
        return format!("malformed at place {place} of the script");
    }
    let numbers: Option<Vec<i128>> =
        answer.split_whitespace().map(|number| number.parse().ok()).collect();
    let words = numbers.and_then(|numbers| words_of_numbers(call, &numbers));
    words.unwrap_or_else(|| answer.to_string())
}

#[cfg(test)]
mod tests {
    use super::*;
    use crate::words::parse_line;

    fn words(line: &str, answer: &str) -> String {
        answer_words(&parse_line(line).unwrap()[0], answer)
    }

    #[test]
    fn readable_answers() {
        assert_eq!(words("enter 1 2 3", "0 3 99"), "accepted, 3 entries");
        let full = "refused 4: a minute would lose more than 1,000 MW";
        assert_eq!(words("enter 1 2 3", "4 3 99"), full);
        let held = "refused 19: start and cause are held already";
        assert_eq!(words("enter 1 2 3 4", "19 3 99"), held);
        assert_eq!(words("cancel 1 2", "6 3 99"), "refused 6: no entry has that start and cause");
        assert_eq!(
            words("minutes 2 0", "0 482400 1009440"),
            "2020-01-01 00:00 to 2021-01-01 00:00",
        );
        assert_eq!(words("target 2", "0 1"), "met");
        assert_eq!(
            words("read 0 00", "13 0 5"),
            "refused 13 at place 0: return, day sheet, plan or input of a workbook malformed"
        );
        assert_eq!(words("set-count 0 0", "0"), "done");
        assert_eq!(words("show-log", "malformed 12"), "malformed at place 12 of the script");
        assert_eq!(words("levels 0", "what"), "what");
        assert_eq!(
            words("show-write 0 3", "14 0 0 1 2"),
            "refused 14: no room for the written return, day sheet or plan"
        );
        assert_eq!(words("read-sheet 0 00", "0 0 1 99"), "accepted, 1 entry");
        let misfit = "refused 15 at place 26: a piece of a day sheet that does not fit";
        assert_eq!(words("read-sheet-kept 0", "15 26 0 99"), misfit);
        let shared = "refused 4 at place 13: shares a minute with an entry";
        assert_eq!(words("read-sheet 0 00", "4 13 0 99"), shared);
        let overlap = "refused 20: an overlap or a cause other than 1 on a day sheet";
        assert_eq!(words("write-sheet 4", "20 0 99"), overlap);
        assert_eq!(words("show-sheet 4", "0 2 20 21 253 252"), "2 bytes: 1415");
        assert_eq!(words("print-minute 0", "0 16 99"), "text of 16 bytes, sum 99");
    }

    #[test]
    fn plans_in_words() {
        let (list, enter) = ("list-plan 0 0 1 1 1 1", "enter-plan 0 1 1 1 1");
        assert_eq!(words(list, "0 0 27 99"), "lists 27 entries");
        assert_eq!(words(enter, "0 0 1 99"), "accepted, 1 entry");
        let clash = "refused 4 at outage 3: a minute would lose more than 1,000 MW";
        assert_eq!(words(enter, "4 3 1 99"), clash);
        assert!(words(list, "17 0 0 0").starts_with("refused 17: the plan's count is not 1 to 400"));
        assert_eq!(
            words("read-plan 00", "0 0 1410 120 14 27 500 1"),
            "from 2019-01-31 23:30 on, 120 minutes every 14 days, 27 times, 500 MW",
        );
        assert_eq!(
            words("read-plan 00", "0 0 1410 120 14 27 500 2"),
            "from 2019-01-31 23:30 on, 120 minutes every 14 days, 27 times, 500 MW, cause 2",
        );
        let malformed =
            "refused 13 at place 17: return, day sheet, plan or input of a workbook malformed";
        assert_eq!(words("read-plan 00", "13 17 0 0 0 0 0 0"), malformed);
        assert_eq!(words("write-plan 0 1 1 1 1 20", "0 17 99"), "17 bytes, buffer sum 99");
    }

    #[test]
    fn workbooks_in_words() {
        // 61, 62 and 61.5.
        let days = "4633781804099174400 4633922541587529728 4633852172843352064";
        let made = "first day 61, last day 62, median 61.5";
        assert_eq!(words("make-period 61 62", &format!("0 {days}")), made);
        let refused = words("make-period 60 62", "12 0 0 0");
        assert!(refused.starts_with("refused 12: day number out of range"), "{refused}");
        assert_eq!(words("gap-of-medians 61 62 61.5 61 62 61.5", "0 7"), "n = 7");
        let printed = words("print-cell 3 empty", "0 28 99");
        assert_eq!(printed, "text of 28 bytes, sum 99");
        assert_eq!(words("print-cell 0 empty", "18 0 0"), "refused 18: a bad cell of a workbook");
        assert_eq!(
            words("fill-workbook", &format!("13{}", " 0".repeat(56))),
            "refused 13: return, day sheet, plan or input of a workbook malformed",
        );
    }

    #[test]
    fn cells_in_words() {
        let row = format!("read-cells{}", " empty".repeat(28));
        let days = "4633781804099174400 4633781804099174400 4633781804099174400";
        let answer = format!("0 0 -7{} 8 {days}", " 0".repeat(23));
        let amounts = format!("amounts -7{} 8, first day 61", " 0".repeat(23));
        assert_eq!(words(&row, &answer), format!("{amounts}, last day 61, median 61"));
        let refused = format!("18 27{}", " 0".repeat(28));
        assert_eq!(words(&row, &refused), "refused 18 at cell 27: a bad cell of a workbook");
        let export = format!("export{} 61 61 61", " 0".repeat(25));
        let cells = format!("0 1 4607182418800017408{} 2 4633781804099174400", " 0 0".repeat(26));
        assert_eq!(words(&export, &cells), format!("number 1{}, day 61", ", empty".repeat(26)),);
        assert_eq!(words(&export, "0 1 5"), "0 1 5");
    }

    #[test]
    fn closed_logs_in_words() {
        assert_eq!(words("close 482400", "0 2 99"), "accepted, 2 entries");
        assert_eq!(words("set-closed 7", "0"), "done");
        assert_eq!(words("cancel 5", "16 2 99"), "refused 16: starts in closed time");
        assert!(words("close 7", "9 2 99").ends_with("a closing back or at no year end"));
        let slots = " 5 6 7 1 0 0 0 0";
        assert_eq!(
            words("show-log", &format!("1 13632480 482400{slots}")),
            "1 entry, regime end 2045-01-01 00:00, closed up to 2020-01-01 00:00; \
             slot 0: 2019-01-31 00:05 to 2019-01-31 00:06, 7 MW",
        );
        let open = words("show-log", &format!("0 13632480 0{}", " 0".repeat(1_600)));
        assert_eq!(open, "0 entries, regime end 2045-01-01 00:00, all open");
        assert_eq!(words("show-log", "0 13632480"), "0 13632480");
        let causes = words("show-log", "2 13632480 0 5 6 7 2 0 0 0 9");
        assert!(causes.ends_with(
            "7 MW, cause 2; slot 1: 2019-01-31 00:00 to 2019-01-31 00:00, 0 MW, cause 9"
        ));
    }
}
