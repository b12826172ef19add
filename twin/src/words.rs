//! Calls as readable text, a call to a line.

use crate::floats::{cell_words, float_bits, float_words};
use crate::model::assessment::Row;
use crate::model::book::Book;
use crate::model::calendar::{day_number, minute_of_date};
use crate::model::dates::minute_text;
use crate::model::log::{Slot, SLOTS, USUAL_CAUSE};
use crate::model::plan::Plan;
use crate::model::settlement::Period;
use crate::model::sheet::{joined, Piece};
use crate::model::workbook::{AMOUNTS, CELLS};
use crate::model::year::{Line, LINES};
use crate::script::{cause_of_slot, Call, CellBits, PeriodBits, YearFields, KEPT};

/// The word for a tag.
pub fn word(tag: u8) -> &'static str {
    match tag {
        1 => "empty",
        2 => "enter",
        3 => "cancel",
        4 => "lost",
        5 => "minutes",
        6 => "availability",
        7 => "target",
        8 => "levels",
        9 => "revenue",
        10 => "assess",
        11 => "period",
        12 => "gap",
        13 => "growth",
        14 => "pay",
        15 => "settle",
        16 => "reconcile",
        17 => "read",
        18 => "write",
        19 => "refile",
        20 => "print",
        21 => "read-kept",
        22 => "refile-kept",
        23 => "read-sheet",
        24 => "read-sheet-kept",
        25 => "write-sheet",
        26 => "print-minute",
        27 => "print-outage",
        28 => "close",
        32 => "set-slot",
        33 => "set-count",
        34 => "set-book",
        35 => "set-year",
        36 => "set-line",
        37 => "fresh-year",
        38 => "year-log",
        39 => "take-log",
        40 => "keep",
        41 => "forget",
        42 => "set-closed",
        48 => "show-log",
        49 => "show-year",
        50 => "show-book",
        51 => "show-write",
        52 => "show-sheet",
        64 => "list-plan",
        65 => "enter-plan",
        66 => "read-plan",
        67 => "write-plan",
        68 => "make-period",
        69 => "gap-of-medians",
        70 => "export",
        71 => "read-cells",
        72 => "print-cell",
        73 => "fill-workbook",
        _ => "?",
    }
}

/// A minute as date and time, UTC; past the last regime end as a number.
pub fn time_words(minute: i128) -> String {
    let text = u32::try_from(minute).ok().and_then(|minute| minute_text(minute).ok());
    text.unwrap_or_else(|| minute.to_string())
}

fn hexadecimal(bytes: &[u8]) -> String {
    bytes.iter().map(|byte| format!("{byte:02x}")).collect()
}

/// A byte as often as `00x8193` says; any other word as it is.
fn repeated(word: &str) -> String {
    let times = |count: &str| digits(count).filter(|&count| count <= 65_535);
    match word.split_once('x').map(|(byte, count)| (byte, times(count))) {
        Some((byte, Some(count))) if byte.len() == 2 => byte.repeat(count as usize),
        _ => word.to_string(),
    }
}

/// The words still to be read on a line.
struct Words<'a> {
    left: std::iter::Peekable<std::str::SplitWhitespace<'a>>,
}

/// The three numbers of a date such as 2024-03-31.
fn date(text: &str) -> Option<(i128, i128, i128)> {
    let parts: Vec<&str> = text.split('-').collect();
    match parts[..] {
        [year, month, day] if year.len() == 4 && month.len() == 2 && day.len() == 2 => {
            Some((digits(year)?, digits(month)?, digits(day)?))
        }
        _ => None,
    }
}

fn digits(text: &str) -> Option<i128> {
    if text.is_empty() || !text.bytes().all(|byte| byte.is_ascii_digit()) {
        return None;
    }
    text.parse().ok()
}

/// The minute of the day of a time such as 23:30.
fn time_of_day(text: &str) -> Option<i128> {
    let (hour, minute) = text.split_once(':')?;
    if hour.len() != 2 || minute.len() != 2 {
        return None;
    }
    let (hour, minute) = (digits(hour)?, digits(minute)?);
    (hour < 24 && minute < 60).then_some(hour * 60 + minute)
}

impl<'a> Words<'a> {
    fn next(&mut self, what: &str) -> Result<&'a str, String> {
        self.left.next().ok_or(format!("{what} is missing"))
    }

    fn number<T: TryFrom<i128>>(&mut self, what: &str) -> Result<T, String> {
        let text = self.next(what)?;
        let number = match text.strip_prefix('-') {
            Some(magnitude) => digits(magnitude).map(|number| -number),
            None => digits(text),
        };
        let number = number.ok_or(format!("{what} is not a number: {text}"))?;
        T::try_from(number).map_err(|_| format!("{what} is too great or too small: {text}"))
    }

    /// A number of minutes, or a date and a time.
    fn minute(&mut self, what: &str) -> Result<u32, String> {
        let dated = self.left.peek().and_then(|text| date(text));
        let Some((year, month, day)) = dated else {
            return self.number(what);
        };
        self.left.next();
        let text = self.next("the time of day")?;
        let time = time_of_day(text).ok_or(format!("{what} has no such time of day: {text}"))?;
        let midnight = minute_of_date(year, month, day).ok_or(format!("{what} is no date"))?;
        u32::try_from(midnight + time).map_err(|_| format!("{what} lies before 31 January 2019"))
    }

    /// A spreadsheet day number, or a date.
    fn day(&mut self, what: &str) -> Result<u32, String> {
        let dated = self.left.peek().and_then(|text| date(text));
        let Some((year, month, day)) = dated else {
            return self.number(what);
        };
        self.left.next();
        let number = day_number(year, month, day).ok_or(format!("{what} has no day number"))?;
        Ok(number as u32)
    }

    fn line(&mut self) -> Result<Line, String> {
        Ok(Line {
            kind: self.number("the kind")?,
            currency: self.number("the currency")?,
            amount: self.number("the amount")?,
        })
    }

    fn k(&mut self) -> Result<u8, String> {
        match self.number("the place of the year")? {
            k @ 0..=4 => Ok(k),
            _ => Err("the place of the year is not 0 to 4".to_string()),
        }
    }

    /// A start, an end and MW.
    fn span(&mut self) -> Result<(u32, u32, u16), String> {
        let (start, end) = (self.minute("the start")?, self.minute("the end")?);
        Ok((start, end, self.number("the MW")?))
    }

    /// A cause, and whether it is there: it is where more words are left than so
    /// many behind it.
    fn cause(&mut self, behind: usize, left_out: u8) -> Result<(u8, bool), String> {
        if self.left.clone().count() > behind {
            Ok((self.number("the cause")?, true))
        } else {
            Ok((left_out, false))
        }
    }

    fn outage(&mut self) -> Result<(Slot, bool), String> {
        let (start, end, mw) = self.span()?;
        let (cause, spelled) = self.cause(0, USUAL_CAUSE)?;
        Ok((Slot { start, end, mw, cause }, spelled))
    }

    /// A plan with so many words behind it.
    fn plan(&mut self, behind: usize) -> Result<(Plan, bool), String> {
        let start = self.minute("the first start")?;
        let length = self.number("the length")?;
        let step = self.number("the step")?;
        let count = self.number("how many")?;
        let mw = self.number("the MW")?;
        let (cause, spelled) = self.cause(behind, USUAL_CAUSE)?;
        Ok((Plan { start, length, step, count, mw, cause }, spelled))
    }

    fn row(&mut self) -> Result<Row, String> {
        Ok(Row {
            index: self.number("the index")?,
            revenue: self.number("the revenue")?,
            cap: self.number("the cap")?,
            floor: self.number("the floor")?,
            w: self.number("W")?,
        })
    }

    fn period(&mut self) -> Result<Period, String> {
        Ok(Period { first: self.day("the first day")?, last: self.day("the last day")? })
    }

    fn float(&mut self, what: &str) -> Result<u64, String> {
        let text = self.next(what)?;
        float_bits(text).ok_or(format!("{what} is no float: {text}"))
    }

    /// The three floats of a workbook's period.
    fn floats(&mut self) -> Result<PeriodBits, String> {
        Ok([self.float("the first day")?, self.float("the last day")?, self.float("the median")?])
    }

    /// A cell: `empty`, or `number` or `day` and a float.
    fn cell(&mut self) -> Result<CellBits, String> {
        match self.next("a cell")? {
            "empty" => Ok(CellBits { kind: 0, bits: 0 }),
            "number" => Ok(CellBits { kind: 1, bits: self.float("the number")? }),
            "day" => Ok(CellBits { kind: 2, bits: self.float("the day")? }),
            other => Err(format!("a cell is empty, a number or a day, not {other}")),
        }
    }

    fn amounts(&mut self) -> Result<[i64; AMOUNTS], String> {
        let mut amounts = [0; AMOUNTS];
        for amount in &mut amounts {
            *amount = self.number("an amount")?;
        }
        Ok(amounts)
    }

    fn cells(&mut self) -> Result<Box<[CellBits; CELLS]>, String> {
        let mut cells = Box::new([CellBits::default(); CELLS]);
        for cell in cells.iter_mut() {
            *cell = self.cell()?;
        }
        Ok(cells)
    }

    /// Whether a piece of a day sheet is marked as continued.
    fn continued(&mut self) -> Result<bool, String> {
        match self.next("fresh or continued")? {
            "fresh" => Ok(false),
            "continued" => Ok(true),
            other => Err(format!("a piece is fresh or continued, not {other}")),
        }
    }

    /// A piece of a day sheet.
    fn piece(&mut self) -> Result<Piece, String> {
        let continued = self.continued()?;
        let (start, end, mw) = self.span()?;
        Ok(Piece { continued, part: Slot { start, end, mw, cause: USUAL_CAUSE } })
    }

    /// `COUNT START STEP LENGTH MW`: so many outages of the usual cause, a step
    /// of minutes apart.
    fn outages(&mut self) -> Result<Vec<Slot>, String> {
        let count: u32 = self.number("how many")?;
        let start = self.minute("the first start")?;
        let step: u32 = self.number("the step")?;
        let length: u32 = self.number("the length")?;
        let mw: u16 = self.number("the MW")?;
        let outage = |place: u32| {
            let start = start.checked_add(place.checked_mul(step)?)?;
            Some(Slot { start, end: start.checked_add(length)?, mw, cause: USUAL_CAUSE })
        };
        (0..count)
            .map(|place| outage(place).ok_or_else(|| "the minutes do not fit".to_string()))
            .collect()
    }

    /// The rest of the line as bytes.
    fn bytes(&mut self) -> Result<Vec<u8>, String> {
        let digits: String = self.left.by_ref().map(repeated).collect();
        if digits.len() % 2 != 0 || !digits.bytes().all(|digit| digit.is_ascii_hexdigit()) {
            return Err("the bytes are not in pairs of hexadecimal digits".to_string());
        }
        let byte = |place: usize| u8::from_str_radix(&digits[place..place + 2], 16).unwrap();
        Ok((0..digits.len()).step_by(2).map(byte).collect())
    }
}

/// The words of lines that are several calls, or a call under another word.
const FILLING: [&str; 5] = ["fill", "fill-lines", "fill-kept", "fill-pieces", "keep-piece"];

/// The calls of a line: none where the line is a comment, an expected answer
/// or blank, several where it fills a log, a year's lines or the kept bytes.
pub fn parse_line(line: &str) -> Result<Vec<Call>, String> {
    let line = line.trim();
    if line.is_empty() || line.starts_with('#') || line.starts_with('>') {
        return Ok(Vec::new());
    }
    let mut words = Words { left: line.split_whitespace().peekable() };
    let calls = match words.left.next_if(|word| FILLING.contains(word)) {
        Some("fill") => filling(&mut words)?,
        Some("fill-kept") => kept_filling(&mut words)?,
        Some("fill-pieces") => piece_filling(&mut words)?,
        Some("keep-piece") => keeping(words.piece()?.bytes()),
        Some(_) => line_filling(&mut words)?,
        None => vec![parse_call(&mut words)?],
    };
    match words.left.next() {
        Some(extra) => Err(format!("nothing is expected here: {extra}")),
        None if calls.iter().any(|call| call.encode().len() > 3 + u16::MAX as usize) => {
            Err("the bytes are too many for a field of a script".to_string())
        }
        None => Ok(calls),
    }
}

/// `fill COUNT START STEP LENGTH MW [CAUSE]`: so many outages entered.
fn filling(words: &mut Words) -> Result<Vec<Call>, String> {
    let outages = words.outages()?;
    let (cause, spelled) = words.cause(0, USUAL_CAUSE)?;
    let by_cause = outages.into_iter().map(|outage| Slot { cause, ..outage });
    Ok(by_cause.map(|outage| Call::Enter { outage, spelled }).collect())
}

/// `fill-pieces KIND COUNT START STEP LENGTH MW`: so many pieces of a day sheet
/// more are kept.
fn piece_filling(words: &mut Words) -> Result<Vec<Call>, String> {
    let continued = words.continued()?;
    let pieces = words.outages()?.into_iter().map(|part| Piece { continued, part });
    Ok(keeping(joined(&pieces.collect::<Vec<_>>())))
}

/// Keeps bytes, in as many calls as it takes.
fn keeping(bytes: Vec<u8>) -> Vec<Call> {
    bytes.chunks(u16::MAX as usize).map(|part| Call::Keep { bytes: part.to_vec() }).collect()
}

/// `fill-lines K COUNT KIND CURRENCY AMOUNT`: the first so many line slots of
/// year K set to the same line.
fn line_filling(words: &mut Words) -> Result<Vec<Call>, String> {
    let k = words.k()?;
    let count: u8 = words.number("how many")?;
    let line = words.line()?;
    if count as usize > LINES {
        return Err("there are 64 line slots".to_string());
    }
    Ok((0..count).map(|slot| Call::SetLine { k, slot, line: line.clone() }).collect())
}

/// `fill-kept COUNT BYTE`: so many bytes of one value more are kept.
fn kept_filling(words: &mut Words) -> Result<Vec<Call>, String> {
    let count: u32 = words.number("how many")?;
    let byte: u8 = words.number("the byte")?;
    if count as usize > KEPT {
        return Err(format!("at most {KEPT} bytes are kept"));
    }
    Ok(keeping(vec![byte; count as usize]))
}

fn parse_call(words: &mut Words) -> Result<Call, String> {
    let year = "the year's number";
    Ok(match words.next("the call")? {
        "empty" => Call::Empty { regime_end: words.minute("the regime end")? },
        "enter" => {
            let (outage, spelled) = words.outage()?;
            Call::Enter { outage, spelled }
        }
        "cancel" => {
            let start = words.minute("the start")?;
            let (cause, spelled) = words.cause(0, USUAL_CAUSE)?;
            Call::Cancel { start, cause, spelled }
        }
        "lost" => Call::Lost { a: words.minute("the first minute")?, b: words.minute("the end")? },
        "minutes" => {
            Call::Minutes { year: words.number(year)?, regime_end: words.minute("the regime end")? }
        }
        "availability" => Call::Availability { year: words.number(year)? },
        "target" => Call::Target { year: words.number(year)? },
        "levels" => Call::Levels { k: words.k()? },
        "revenue" => Call::Revenue { k: words.k()? },
        "assess" => {
            let mut rows = [Row::default(); 5];
            for row in &mut rows {
                *row = words.row()?;
            }
            Call::Assess { rows }
        }
        "period" => Call::Period,
        "gap" => Call::Gap { earlier: words.period()?, later: words.period()? },
        "growth" => Call::Growth { n: words.number("n")? },
        "pay" => Call::Pay { amount: words.number("the amount")?, n: words.number("n")? },
        "settle" => Call::Settle {
            adjustment: words.number("the adjustment")?,
            earlier: words.period()?,
            later: words.period()?,
        },
        "reconcile" => Call::Reconcile {
            final_amount: words.number("the final amount")?,
            provisional: words.number("the provisional amount")?,
            earlier: words.period()?,
            later: words.period()?,
        },
        "read" => Call::Read { k: words.k()?, bytes: words.bytes()? },
        "write" => Call::Write { k: words.k()?, room: words.number("the room")? },
        "refile" => Call::Refile { room: words.number("the room")?, bytes: words.bytes()? },
        "print" => Call::Print { bytes: words.bytes()? },
        "read-kept" => Call::ReadKept { k: words.k()? },
        "refile-kept" => Call::RefileKept { room: words.number("the room")? },
        "read-sheet" => {
            Call::ReadSheet { regime_end: words.minute("the regime end")?, bytes: words.bytes()? }
        }
        "read-sheet-kept" => Call::ReadSheetKept { regime_end: words.minute("the regime end")? },
        "write-sheet" => Call::WriteSheet { room: words.number("the room")? },
        "print-minute" => Call::PrintMinute { minute: words.minute("the minute")? },
        "print-outage" => {
            let (outage, spelled) = words.outage()?;
            Call::PrintOutage { outage, spelled }
        }
        "close" => Call::Close { minute: words.minute("the minute")? },
        "set-slot" => {
            let slot = words.number("the slot")?;
            if slot as usize >= SLOTS {
                return Err("the slot is not 0 to 399".to_string());
            }
            let (start, end, mw) = words.span()?;
            let (cause, spelled) = words.cause(0, cause_of_slot(start, end, mw))?;
            Call::SetSlot { slot, outage: Slot { start, end, mw, cause }, spelled }
        }
        "set-count" => Call::SetCount {
            count: words.number("the count")?,
            regime_end: words.minute("the regime end")?,
        },
        "set-book" => Call::SetBook {
            book: Book {
                regime_end: words.minute("the regime end")?,
                target_1: words.number("the target of year 1")?,
                target_25: words.number("the target of year 25")?,
                pcl: words.number("PCL")?,
                pfl: words.number("PFL")?,
                pcac: words.number("PCAC")?,
                pcaf: words.number("PCAF")?,
                orac: words.number("ORAC")?,
                oraf: words.number("ORAF")?,
                miss_factor: words.number("the factor on a miss")?,
            },
        },
        "set-year" => Call::SetYear {
            k: words.k()?,
            fields: YearFields {
                number: words.number(year)?,
                pppi: words.number("PPPI")?,
                rate: words.number("the rate")?,
                aic: words.number("AIC")?,
                pyc: words.number("PYC")?,
                pyf: words.number("PYF")?,
                mark: match words.next("the mark")? {
                    "0" => false,
                    "1" => true,
                    _ => return Err("the mark is not 0 or 1".to_string()),
                },
                w: words.number("W")?,
                line_count: words.number("the line count")?,
            },
        },
        "set-line" => {
            let (k, slot) = (words.k()?, words.number("the line slot")?);
            if slot as usize >= LINES {
                return Err("the line slot is not 0 to 63".to_string());
            }
            Call::SetLine { k, slot, line: words.line()? }
        }
        "fresh-year" => Call::FreshYear { k: words.k()? },
        "year-log" => Call::YearLog { k: words.k()? },
        "take-log" => Call::TakeLog { k: words.k()? },
        "keep" => Call::Keep { bytes: words.bytes()? },
        "forget" => Call::Forget,
        "set-closed" => Call::SetClosed { minute: words.minute("the minute")? },
        "show-log" => Call::ShowLog,
        "show-year" => Call::ShowYear { k: words.k()? },
        "show-book" => Call::ShowBook,
        "show-write" => Call::ShowWrite { k: words.k()?, room: words.number("the room")? },
        "show-sheet" => Call::ShowSheet { room: words.number("the room")? },
        "list-plan" => {
            let regime_end = words.minute("the regime end")?;
            let (plan, spelled) = words.plan(0)?;
            Call::ListPlan { regime_end, plan, spelled }
        }
        "enter-plan" => {
            let (plan, spelled) = words.plan(0)?;
            Call::EnterPlan { plan, spelled }
        }
        "read-plan" => Call::ReadPlan { bytes: words.bytes()? },
        "write-plan" => {
            let (plan, spelled) = words.plan(1)?;
            Call::WritePlan { plan, room: words.number("the room")?, spelled }
        }
        "make-period" => {
            let Period { first, last } = words.period()?;
            Call::MakePeriod { first, last }
        }
        "gap-of-medians" => Call::GapOfMedians { earlier: words.floats()?, later: words.floats()? },
        "export" => Call::Export { amounts: words.amounts()?, period: words.floats()? },
        "read-cells" => Call::ReadCells { cells: words.cells()? },
        "print-cell" => Call::PrintCell { index: words.number("the index")?, cell: words.cell()? },
        "fill-workbook" => Call::FillWorkbook { bytes: words.bytes()? },
        other => return Err(format!("no such call: {other}")),
    })
}

/// A cause behind the numbers before it, where it is spelled.
fn with_cause(words: String, cause: u8, spelled: bool) -> String {
    if spelled {
        format!("{words} {cause}")
    } else {
        words
    }
}

fn outage_words(outage: &Slot, spelled: bool) -> String {
    let (start, end) = (time_words(outage.start as i128), time_words(outage.end as i128));
    with_cause(format!("{start} {end} {}", outage.mw), outage.cause, spelled)
}

fn plan_words(plan: &Plan, spelled: bool) -> String {
    let start = time_words(plan.start as i128);
    let words = format!("{start} {} {} {} {}", plan.length, plan.step, plan.count, plan.mw);
    with_cause(words, plan.cause, spelled)
}

fn floats_words(period: &PeriodBits) -> String {
    period.map(float_words).join(" ")
}

fn days_words(earlier: &Period, later: &Period) -> String {
    format!("{} {} {} {}", earlier.first, earlier.last, later.first, later.last)
}

/// A call's line of text.
pub fn call_words(call: &Call) -> String {
    let time = |minute: &u32| time_words(*minute as i128);
    let rest = match call {
        Call::Empty { regime_end } | Call::ReadSheetKept { regime_end } => time(regime_end),
        Call::Enter { outage, spelled } | Call::PrintOutage { outage, spelled } => {
            outage_words(outage, *spelled)
        }
        Call::Cancel { start, cause, spelled } => with_cause(time(start), *cause, *spelled),
        Call::Lost { a, b } => format!("{} {}", time(a), time(b)),
        Call::Minutes { year, regime_end } => format!("{year} {}", time(regime_end)),
        Call::Availability { year } | Call::Target { year } => year.to_string(),
        Call::Levels { k }
        | Call::Revenue { k }
        | Call::FreshYear { k }
        | Call::YearLog { k }
        | Call::TakeLog { k }
        | Call::ReadKept { k }
        | Call::ShowYear { k } => k.to_string(),
        Call::Assess { rows } => {
            let row = |r: &Row| format!("{} {} {} {} {}", r.index, r.revenue, r.cap, r.floor, r.w);
            rows.iter().map(row).collect::<Vec<_>>().join("  ")
        }
        Call::Period | Call::Forget | Call::ShowLog | Call::ShowBook => String::new(),
        Call::Gap { earlier, later } => days_words(earlier, later),
        Call::Growth { n } => n.to_string(),
        Call::Pay { amount, n } => format!("{amount} {n}"),
        Call::Settle { adjustment, earlier, later } => {
            format!("{adjustment} {}", days_words(earlier, later))
        }
        Call::Reconcile { final_amount, provisional, earlier, later } => {
            format!("{final_amount} {provisional} {}", days_words(earlier, later))
        }
        Call::Read { k, bytes } => format!("{k} {}", hexadecimal(bytes)),
        Call::Write { k, room } | Call::ShowWrite { k, room } => format!("{k} {room}"),
        Call::Refile { room, bytes } => format!("{room} {}", hexadecimal(bytes)),
        Call::Print { bytes }
        | Call::Keep { bytes }
        | Call::ReadPlan { bytes }
        | Call::FillWorkbook { bytes } => hexadecimal(bytes),
        Call::RefileKept { room } | Call::WriteSheet { room } => room.to_string(),
        Call::ReadSheet { regime_end, bytes } => {
            format!("{} {}", time(regime_end), hexadecimal(bytes))
        }
        Call::PrintMinute { minute } | Call::Close { minute } | Call::SetClosed { minute } => {
            time(minute)
        }
        Call::ShowSheet { room } => room.to_string(),
        Call::SetSlot { slot, outage, spelled } => {
            format!("{slot} {}", outage_words(outage, *spelled))
        }
        Call::SetCount { count, regime_end } => format!("{count} {}", time(regime_end)),
        Call::SetBook { book: b } => format!(
            "{} {} {} {} {} {} {} {} {} {}",
            time(&b.regime_end),
            b.target_1,
            b.target_25,
            b.pcl,
            b.pfl,
            b.pcac,
            b.pcaf,
            b.orac,
            b.oraf,
            b.miss_factor,
        ),
        Call::SetYear { k, fields: y } => format!(
            "{k} {} {} {} {} {} {} {} {} {}",
            y.number, y.pppi, y.rate, y.aic, y.pyc, y.pyf, y.mark as u8, y.w, y.line_count,
        ),
        Call::SetLine { k, slot, line } => {
            format!("{k} {slot} {} {} {}", line.kind, line.currency, line.amount)
        }
        Call::ListPlan { regime_end, plan, spelled } => {
            format!("{} {}", time(regime_end), plan_words(plan, *spelled))
        }
        Call::EnterPlan { plan, spelled } => plan_words(plan, *spelled),
        Call::WritePlan { plan, room, spelled } => {
            format!("{} {room}", plan_words(plan, *spelled))
        }
        Call::MakePeriod { first, last } => format!("{first} {last}"),
        Call::GapOfMedians { earlier, later } => {
            format!("{}  {}", floats_words(earlier), floats_words(later))
        }
        Call::Export { amounts, period } => {
            format!(
                "{}  {}",
                amounts.map(|amount| amount.to_string()).join(" "),
                floats_words(period)
            )
        }
        Call::ReadCells { cells } => cells.iter().map(cell_words).collect::<Vec<_>>().join("  "),
        Call::PrintCell { index, cell } => format!("{index} {}", cell_words(cell)),
    };
    format!("{} {rest}", word(call.tag())).trim_end().to_string()
}

#[cfg(test)]
mod tests {
    use super::*;
    use crate::generate::Generator;

    #[test]
    fn words_go_there_and_back() {
        let mut generator = Generator::new(3);
        for _ in 0..40 {
            for (call, _) in generator.next_block().calls {
                assert_eq!(parse_line(&call_words(&call)), Ok(vec![call]));
            }
        }
    }

    #[test]
    fn dates_and_numbers() {
        let dated = parse_line("enter 2019-01-31 23:30 2019-02-01 01:30 500");
        assert_eq!(dated, parse_line("enter 1410 1530 500"));
        assert_eq!(dated.unwrap().len(), 1);
        assert_eq!(
            parse_line("gap 2023-01-01 2023-12-31 2024-04-01 2025-03-31"),
            parse_line("gap 44927 45291 45383 45747"),
        );
        assert_eq!(parse_line("close 2020-01-01 00:00"), Ok(vec![Call::Close { minute: 482_400 }]));
        assert_eq!(parse_line("set-closed 7"), Ok(vec![Call::SetClosed { minute: 7 }]));
        assert_eq!(parse_line("# enter"), Ok(vec![]));
        assert_eq!(parse_line("fill 2 0 10 5 1").map(|calls| calls.len()), Ok(2));
        assert_eq!(parse_line("fill-lines 0 64 1 0 5").map(|calls| calls.len()), Ok(64));
        assert!(parse_line("fill-lines 0 65 1 0 5").is_err());
        assert_eq!(parse_line("fill-kept 65536 7").map(|calls| calls.len()), Ok(2));
        assert!(parse_line("fill-kept 262145 7").is_err());
        assert_eq!(parse_line("keep 14 00x3 0ax2"), parse_line("keep 140000000a0a"));
        assert!(parse_line("keep 00x").is_err() && parse_line("keep 0x2").is_err());
        assert!(parse_line("keep 00x65536").is_err());
        assert_eq!(
            parse_line("keep-piece continued 2019-02-01 00:00 1441 256"),
            parse_line("keep 15000a000005a0000005a10100"),
        );
        assert_eq!(
            parse_line("fill-pieces fresh 2 0 10 5 1"),
            parse_line("keep 14000a00000000000000050001 14000a0000000a0000000f0001"),
        );
        assert_eq!(parse_line("fill-pieces fresh 5042 0 1 1 1").map(|calls| calls.len()), Ok(2));
        assert_eq!(parse_line(""), Ok(vec![]));
    }

    #[test]
    fn causes_in_words() {
        let outage = |cause| Slot { start: 1, end: 2, mw: 3, cause };
        assert_eq!(parse_line("enter 1 2 3"), Ok(vec![Call::enter(outage(1))]));
        assert_eq!(parse_line("enter 1 2 3 0"), Ok(vec![Call::enter(outage(0))]));
        assert_eq!(parse_line("print-outage 1 2 3 255"), Ok(vec![Call::print_outage(outage(255))]));
        let spelled = Call::Enter { outage: outage(1), spelled: true };
        assert_eq!(call_words(&spelled), "enter 2019-01-31 00:01 2019-01-31 00:02 3 1");
        assert_eq!(parse_line("enter 1 2 3 1"), Ok(vec![spelled]));
        assert_eq!(parse_line("cancel 5"), Ok(vec![Call::cancel(5, 1)]));
        assert_eq!(parse_line("cancel 2019-01-31 00:05 9"), Ok(vec![Call::cancel(5, 9)]));
        assert_eq!(call_words(&Call::cancel(5, 9)), "cancel 2019-01-31 00:05 9");
        let zeros = parse_line("set-slot 0 0 0 0");
        assert_eq!(zeros, Ok(vec![Call::set_slot(0, Slot::default())]));
        let held = Slot { cause: 2, ..Slot::default() };
        assert_eq!(parse_line("set-slot 0 0 0 0 2"), Ok(vec![Call::set_slot(0, held)]));
        assert_eq!(parse_line("set-slot 9 1 2 3"), Ok(vec![Call::set_slot(9, outage(1))]));
        assert_eq!(
            parse_line("fill 2 1 10 1 3 7"),
            Ok(vec![
                Call::enter(outage(7)),
                Call::enter(Slot { start: 11, end: 12, mw: 3, cause: 7 }),
            ]),
        );
    }

    #[test]
    fn plans_in_words() {
        let plan = Plan { start: 1_410, length: 120, step: 14, count: 27, mw: 500, cause: 1 };
        let dated = "2019-01-31 23:30 120 14 27 500";
        let by = |cause| Plan { cause, ..plan };
        for (words, plan) in [
            (dated.to_string(), plan),
            ("1410 120 14 27 500".to_string(), plan),
            (format!("{dated} 7"), by(7)),
            (format!("{dated} 0"), by(0)),
        ] {
            let entered = parse_line(&format!("enter-plan {words}"));
            assert_eq!(entered, Ok(vec![Call::enter_plan(plan)]));
            let listed = parse_line(&format!("list-plan 2045-01-01 00:00 {words}"));
            assert_eq!(listed, Ok(vec![Call::list_plan(13_632_480, plan)]));
            let written = parse_line(&format!("write-plan {words} 17"));
            assert_eq!(written, Ok(vec![Call::write_plan(plan, 17)]));
        }
        assert_eq!(call_words(&Call::enter_plan(plan)), format!("enter-plan {dated}"));
        assert_eq!(call_words(&Call::write_plan(by(7), 18)), format!("write-plan {dated} 7 18"));
        let spelled = parse_line(&format!("enter-plan {dated} 1"));
        assert_eq!(spelled, Ok(vec![Call::EnterPlan { plan, spelled: true }]));
        let bytes = vec![30, 0, 14];
        assert_eq!(parse_line("read-plan 1e000e"), Ok(vec![Call::ReadPlan { bytes }]));
        assert_eq!(parse_line("read-plan"), Ok(vec![Call::ReadPlan { bytes: vec![] }]));
    }

    #[test]
    fn workbooks_in_words() {
        let made = Call::MakePeriod { first: 44_927, last: 45_291 };
        for words in ["make-period 2023-01-01 2023-12-31", "make-period 44927 45291"] {
            assert_eq!(parse_line(words), Ok(vec![made.clone()]));
        }
        assert_eq!(call_words(&made), "make-period 44927 45291");
        let bits = |float: f64| float.to_bits();
        let earlier = [bits(61.0), bits(62.0), bits(61.5)];
        let later = [bits(-0.0), 0x7ff8 << 48, bits(f64::NEG_INFINITY)];
        let gap = Call::GapOfMedians { earlier, later };
        assert_eq!(call_words(&gap), "gap-of-medians 61 62 61.5  -0 nan -inf");
        let same = "gap-of-medians 61.0 62 0x404ec00000000000 -0.0 nan -inf";
        assert_eq!(parse_line(same), Ok(vec![gap]));
        let amounts = std::array::from_fn(|place| place as i64 - 3);
        let exported = Call::Export { amounts, period: earlier };
        let words = call_words(&exported);
        assert!(words.starts_with("export -3 -2 ") && words.ends_with(" 20 21  61 62 61.5"));
        assert_eq!(parse_line(&words), Ok(vec![exported]));
        assert_eq!(
            parse_line("fill-workbook 00x2 ff"),
            Ok(vec![Call::FillWorkbook { bytes: vec![0, 0, 255] }]),
        );
    }

    #[test]
    fn cells_in_words() {
        let cell = |kind, float: f64| CellBits { kind, bits: float.to_bits() };
        let printed = |cell| Ok(vec![Call::PrintCell { index: 3, cell }]);
        assert_eq!(parse_line("print-cell 3 empty"), printed(cell(0, 9.0)));
        assert_eq!(parse_line("print-cell 3 number -0"), printed(cell(1, -0.0)));
        assert_eq!(parse_line("print-cell 3 day 61.5"), printed(cell(2, 61.5)));
        let row = format!("read-cells{}", " empty  day 61".repeat(14));
        let calls = parse_line(&row).unwrap();
        let Call::ReadCells { cells } = &calls[0] else { panic!() };
        assert_eq!((cells[0], cells[27]), (cell(0, 0.0), cell(2, 61.0)));
    }

    #[test]
    fn wrong_lines() {
        for line in [
            "entre 1 2 3",
            "enter 1 2",
            "enter 1 2 3 4 5",
            "enter 1 2 3 256",
            "enter 1 2 3 -1",
            "cancel 1 2 3",
            "cancel 1 256",
            "print-outage 1 2 3 256",
            "fill 2 0 10 5 1 1 1",
            "keep-piece fresh 0 1 1 1",
            "fill-pieces fresh 2 0 10 5 1 1",
            "enter 2019-01-30 23:30 5 3",
            "enter 2019-02-29 23:30 5 3",
            "enter 2019-02-28 24:00 5 3",
            "cancel -1",
            "close",
            "close 2020-01-01",
            "set-closed 4294967296",
            "growth 4294967296",
            "levels 5",
            "read 0 123",
            "read 0 zz",
            "keep-piece 0 1 1",
            "fill-pieces fresh 2 4294967295 1 1 1",
            "read-sheet 0 123",
            "set-slot 400 1 2 3",
            "set-slot 399 1 2 3 4 5",
            "set-line 0 64 1 0 5",
            "set-year 0 1 1 1 1 1 1 2 0 0",
            "gap 1900-02-28 61 61 61",
            "enter-plan 0 1 1 1",
            "enter-plan 0 1 1 1 1 1 1",
            "enter-plan 0 1 1 1 1 256",
            "enter-plan 0 1 65536 1 1",
            "list-plan 0 1 1 1 1",
            "read-plan 123",
            "write-plan 0 1 1 1 1",
            "write-plan 0 1 1 1 1 4294967296",
            "write-plan 0 1 1 1 1 256 1",
            "write-plan 0 1 1 1 1 1 1 1",
            "make-period 61",
            "make-period 61 61.5",
            "make-period 1900-02-28 61",
            "gap-of-medians 61 61 61 61 61",
            "gap-of-medians 61 61 61 61 61 1e3",
            "export 1 2 3",
            "print-cell 0",
            "print-cell 0 1",
            "print-cell 0 number",
            "print-cell -1 empty",
            "print-cell 0 empty 1",
            "print-cell 4294967296 empty",
            "read-cells empty empty",
            "fill-workbook 123",
        ] {
            assert!(parse_line(line).is_err(), "{line}");
        }
    }
}
