//! What the commands do.

use std::collections::BTreeMap;
use std::fs;
use std::io::{self, BufRead, BufReader, Read, Write};
use std::ops::RangeInclusive;
use std::process::{Child, ChildStdin, Command, Stdio};
use std::sync::mpsc;
use std::thread;

use crate::answers::{answer_words, refusal_words};
use crate::generate::{Block, Generator};
use crate::model::{daysheet, filling, oldsheet};
use crate::script::Call;
use crate::words::{call_words, parse_line, word};

/// Where the script of a difference is written.
const DIFFERENCE: &str = "target/twin-difference.script";
/// The tags of calls of the library but for those on plans and workbooks; the
/// others set and show.
const CALLS: RangeInclusive<u8> = 1..=28;
/// The tags of calls on plans.
const PLANS: RangeInclusive<u8> = 64..=67;
/// The tags of calls on workbooks.
const WORKBOOKS: RangeInclusive<u8> = 68..=73;
/// The tags of calls on returns.
const RETURNS: RangeInclusive<u8> = 17..=22;
/// The tags of calls on day sheets and dates.
const SHEETS: RangeInclusive<u8> = 23..=27;
/// How many wrong figures are shown one by one.
const SHOWN_DIFFERENCES: usize = 10;

/// Whether all went well; an `Err` says what did not.
type Outcome = Result<bool, String>;

/// Whether a tag is that of a call of the library.
fn is_of_library(tag: u8) -> bool {
    [CALLS, PLANS, WORKBOOKS].iter().any(|tags| tags.contains(&tag))
}

fn start(command: &[String]) -> Result<Child, String> {
    Command::new(&command[0])
        .args(&command[1..])
        .stdin(Stdio::piped())
        .stdout(Stdio::piped())
        .spawn()
        .map_err(|error| format!("{}: {error}", command[0]))
}

/// Runs a program on an input and gives all that it prints.
fn run(command: &[String], input: Vec<u8>) -> Result<Vec<u8>, String> {
    let mut child = start(command)?;
    let mut stdin = child.stdin.take().unwrap();
    // A program may end before it has read everything.
    let writer = thread::spawn(move || drop(stdin.write_all(&input)));
    let mut output = Vec::new();
    let read = child.stdout.take().unwrap().read_to_end(&mut output);
    writer.join().unwrap();
    read.map_err(|error| error.to_string())?;
    child.wait().map_err(|error| error.to_string())?;
    Ok(output)
}

fn save(path: &str, bytes: &[u8]) -> Result<(), String> {
    let saved = fs::create_dir_all("target").and_then(|()| fs::write(path, bytes));
    saved.map_err(|error| format!("{path}: {error}"))
}

/// A part of the script under way: a block, or the malformed bytes at its end.
enum Part {
    Block(Block),
    Malformed { bytes: Vec<u8>, answer: String },
}

/// Makes blocks until there are enough calls, a tenth of them on returns and a
/// tenth on day sheets and dates, and writes them. A part is handed over before
/// it is written, so that its answers are read while it is.
fn write_script(seed: u64, least: u64, parts: mpsc::Sender<Part>, mut stdin: ChildStdin) {
    let mut generator = Generator::new(seed);
    let (mut calls, mut returns, mut sheets, mut place) = (0, 0, 0, 0);
    while calls < least || returns * 10 < calls || sheets * 10 < calls {
        let block = if returns * 10 < calls {
            generator.return_block()
        } else if sheets * 10 < calls {
            generator.sheet_block()
        } else {
            generator.next_block()
        };
        let mut script = Vec::new();
        for (call, _) in &block.calls {
            calls += is_of_library(call.tag()) as u64;
            returns += RETURNS.contains(&call.tag()) as u64;
            sheets += SHEETS.contains(&call.tag()) as u64;
            script.extend(call.encode());
        }
        place += script.len();
        if parts.send(Part::Block(block)).is_err() || stdin.write_all(&script).is_err() {
            return;
        }
    }
    let bytes = generator.malformed_field();
    let answer = format!("malformed {place}");
    if parts.send(Part::Malformed { bytes: bytes.clone(), answer }).is_ok() {
        drop(stdin.write_all(&bytes));
    }
}

/// How often each call gave each number.
#[derive(Default)]
struct Tally {
    calls: u64,
    returns: u64,
    sheets: u64,
    plans: u64,
    workbooks: u64,
    numbers: BTreeMap<u8, BTreeMap<u8, u64>>,
    others: u64,
}

impl Tally {
    fn count(&mut self, call: &Call, answer: &str) {
        let tag = call.tag();
        if !is_of_library(tag) {
            self.others += 1;
            return;
        }
        self.calls += 1;
        self.returns += RETURNS.contains(&tag) as u64;
        self.sheets += SHEETS.contains(&tag) as u64;
        self.plans += PLANS.contains(&tag) as u64;
        self.workbooks += WORKBOOKS.contains(&tag) as u64;
        let number = answer.split(' ').next().and_then(|number| number.parse().ok()).unwrap_or(0);
        *self.numbers.entry(tag).or_default().entry(number).or_default() += 1;
    }

    fn print(&self) {
        for (tag, numbers) in &self.numbers {
            let all: u64 = numbers.values().sum();
            let name = |number: &u8| match number {
                0 => "accepted".to_string(),
                refusal => format!("refused {refusal}:"),
            };
            let row: Vec<String> =
                numbers.iter().map(|(number, times)| format!("{} {times}", name(number))).collect();
            println!("{tag:2} {:15} {all:7} calls: {}", word(*tag), row.join(", "));
        }
        println!("   setting and showing {} calls", self.others);
    }
}

/// The next line a program prints; none where it prints no more.
fn next_line(lines: &mut impl BufRead) -> Result<Option<String>, String> {
    let mut line = Vec::new();
    lines.read_until(b'\n', &mut line).map_err(|error| error.to_string())?;
    if line.pop() != Some(b'\n') && line.is_empty() {
        return Ok(None);
    }
    Ok(Some(String::from_utf8_lossy(&line).into_owned()))
}

/// Two long answers: where they part.
fn shown(answer: &str) -> String {
    if answer.len() <= 400 {
        answer.to_string()
    } else {
        format!("{} .. ({} bytes)", answer.chars().take(400).collect::<String>(), answer.len())
    }
}

fn first_difference(one: &str, other: &str) -> String {
    let (ours, theirs): (Vec<&str>, Vec<&str>) =
        (one.split(' ').collect(), other.split(' ').collect());
    let same = ours.iter().zip(&theirs).take_while(|(a, b)| a == b).count();
    let at =
        |row: &[&str]| row.get(same).map_or("nothing".to_string(), |number| number.to_string());
    format!("they part at number {} of the line: {} and {}", same + 1, at(&ours), at(&theirs))
}

/// Compares a program's answers with the model's.
pub fn compare(seed: u64, least: u64, command: &[String]) -> Outcome {
    let mut child = start(command)?;
    let stdin = child.stdin.take().unwrap();
    let mut lines = BufReader::new(child.stdout.take().unwrap());
    let (sender, parts) = mpsc::channel();
    let writer = thread::spawn(move || write_script(seed, least, sender, stdin));
    let mut tally = Tally::default();
    let mut number = 0u64;
    for part in parts {
        let (name, script, words, expected, found) = match part {
            Part::Block(block) => {
                let mut difference = None;
                for (place, (call, expected)) in block.calls.iter().enumerate() {
                    number += 1;
                    let found = next_line(&mut lines)?;
                    if found.as_deref() != Some(expected) {
                        difference = Some((place, found));
                        break;
                    }
                    tally.count(call, expected);
                }
                let Some((place, found)) = difference else { continue };
                let script = block.calls[..=place].iter().flat_map(|(call, _)| call.encode());
                let (call, expected) = &block.calls[place];
                (block.name, script.collect(), call_words(call), expected.clone(), found)
            }
            Part::Malformed { bytes, answer } => {
                number += 1;
                let found = next_line(&mut lines)?;
                if found.as_ref() == Some(&answer) {
                    continue;
                }
                ("malformed", bytes, "a malformed field".to_string(), answer, found)
            }
        };
        save(DIFFERENCE, &script)?;
        let found = found.unwrap_or_else(|| "no answer".to_string());
        println!("twin: a difference at call {number} of seed {seed}, in a block about: {name}");
        println!("the block up to that call is in {DIFFERENCE}");
        println!("call:    {words}");
        println!("model:   {}", shown(&expected));
        println!("program: {}", shown(&found));
        println!("{}", first_difference(&expected, &found));
        drop(child.kill());
        return Ok(false);
    }
    writer.join().unwrap();
    if let Some(extra) = next_line(&mut lines)? {
        println!("twin: a difference after the last call of seed {seed}");
        println!("program: {}", shown(&extra));
        drop(child.kill());
        return Ok(false);
    }
    child.wait().map_err(|error| error.to_string())?;
    tally.print();
    println!(
        "twin: {} calls compared, {} of them returns, {} day sheets and dates, {} plans, \
         {} workbooks, 0 differences",
        tally.calls, tally.returns, tally.sheets, tally.plans, tally.workbooks
    );
    Ok(true)
}

/// Compares a program on short scripts whose last field is malformed.
pub fn malformed(seed: u64, count: u64, command: &[String]) -> Outcome {
    let mut generator = Generator::new(seed);
    for number in 1..=count {
        let block = generator.next_block();
        let start = block.calls.len().min(8);
        let mut script: Vec<u8> =
            block.calls[..start].iter().flat_map(|(call, _)| call.encode()).collect();
        let mut expected: String =
            block.calls[..start].iter().map(|(_, answer)| format!("{answer}\n")).collect();
        expected += &format!("malformed {}\n", script.len());
        script.extend(generator.malformed_field());
        let found = run(command, script.clone())?;
        if found != expected.as_bytes() {
            save(DIFFERENCE, &script)?;
            println!("twin: a difference at script {number} of seed {seed}, in {DIFFERENCE}");
            println!("model:\n{expected}program:\n{}", String::from_utf8_lossy(&found));
            return Ok(false);
        }
    }
    println!("twin: {count} malformed scripts compared, 0 differences");
    Ok(true)
}

/// Compares a program that prints returns.
pub fn texts(seed: u64, count: u64, command: &[String]) -> Outcome {
    compare_texts(seed, count, command, Generator::some_return, daysheet::text)
}

/// Compares a program that prints old day sheets.
pub fn sheets(seed: u64, count: u64, command: &[String]) -> Outcome {
    compare_texts(seed, count, command, Generator::printed_sheet, oldsheet::text)
}

/// Compares a program that prints workbooks.
pub fn workbooks(seed: u64, count: u64, command: &[String]) -> Outcome {
    compare_texts(seed, count, command, Generator::some_workbook_input, filling::text)
}

/// Compares a program's text of each of so many inputs with the model's.
fn compare_texts(
    seed: u64,
    count: u64,
    command: &[String],
    make: fn(&mut Generator) -> Vec<u8>,
    text: fn(&[u8]) -> String,
) -> Outcome {
    let mut generator = Generator::new(seed);
    let mut heads: BTreeMap<String, u64> = BTreeMap::new();
    for number in 1..=count {
        let bytes = make(&mut generator);
        let expected = text(&bytes);
        let found = run(command, bytes.clone())?;
        if found != expected.as_bytes() {
            let path = "target/twin-difference.input";
            save(path, &bytes)?;
            println!("twin: a difference at text {number} of seed {seed}, its input is in {path}");
            println!("model:\n{expected}program:\n{}", String::from_utf8_lossy(&found));
            return Ok(false);
        }
        *heads.entry(head_of(&expected)).or_default() += 1;
    }
    for (head, times) in heads {
        println!("{head}: {times}");
    }
    println!("twin: {count} texts compared, 0 differences");
    Ok(true)
}

/// What is counted of a text: a refusal by its number, any other as printed.
fn head_of(text: &str) -> String {
    if text.starts_with("refused") {
        text.split_whitespace().take(2).collect::<Vec<_>>().join(" ")
    } else {
        "printed in full".to_string()
    }
}

/// The calls of a text, each with its line's number; a wrong line is named.
fn calls_of(text: &str) -> Result<Vec<(usize, Call)>, String> {
    let mut calls = Vec::new();
    let mut wrong = Vec::new();
    for (place, line) in text.lines().enumerate() {
        match parse_line(line) {
            Ok(several) => calls.extend(several.into_iter().map(|call| (place, call))),
            Err(what) => wrong.push(format!("line {}: {what}", place + 1)),
        }
    }
    if wrong.is_empty() {
        Ok(calls)
    } else {
        Err(wrong.join("\n"))
    }
}

/// Turns text into a script.
pub fn script() -> Outcome {
    let mut text = String::new();
    io::stdin().read_to_string(&mut text).map_err(|error| error.to_string())?;
    let calls = calls_of(&text)?;
    let script: Vec<u8> = calls.iter().flat_map(|(_, call)| call.encode()).collect();
    io::stdout().write_all(&script).map_err(|error| error.to_string())?;
    Ok(true)
}

fn read_text(path: &str) -> Result<String, String> {
    fs::read_to_string(path).map_err(|error| format!("{path}: {error}"))
}

/// Prints a text with each call's answer behind it.
pub fn answers(path: &str) -> Outcome {
    let text = read_text(path)?;
    let calls = calls_of(&text)?;
    let mut given = String::new();
    io::stdin().read_to_string(&mut given).map_err(|error| error.to_string())?;
    let mut given = given.lines();
    let mut calls = calls.into_iter().peekable();
    let mut complete = true;
    for (place, line) in text.lines().enumerate() {
        // Of a line that is several calls, the answer to the last.
        let mut shown = None;
        while let Some((_, call)) = calls.next_if(|(at, _)| *at == place) {
            let answer = given.next().map(|answer| answer_words(&call, answer));
            complete = complete && answer.is_some();
            shown = Some(answer.unwrap_or_else(|| "no answer".to_string()));
        }
        match shown {
            None => println!("{line}"),
            Some(answer) => println!("{} -> {answer}", line.trim_end()),
        }
    }
    if given.next().is_some() {
        return Err("there are more answers than calls".to_string());
    }
    Ok(complete)
}

/// Whether an answer is the expected one, which may stop at " ..".
fn as_expected(expected: &str, answer: &str) -> bool {
    match expected.strip_suffix(" ..") {
        None => expected == answer,
        Some(start) => format!("{answer} ").starts_with(&format!("{start} ")),
    }
}

/// The expected answers of a text: the place of the call and the answer.
fn expected_answers(text: &str) -> Result<Vec<(usize, &str)>, String> {
    let mut expected = Vec::new();
    let mut call_line = None;
    for (place, line) in text.lines().enumerate() {
        let line = line.trim();
        if let Some(answer) = line.strip_prefix('>') {
            let call = call_line.take();
            let call = call.ok_or(format!("line {}: no call before this answer", place + 1))?;
            expected.push((call, answer.trim()));
        } else if !line.is_empty() && !line.starts_with('#') {
            call_line = Some(place);
        }
    }
    Ok(expected)
}

/// Compares a program's answers with those that a text expects.
pub fn figures(path: &str, command: &[String]) -> Outcome {
    let text = read_text(path)?;
    let calls = calls_of(&text)?;
    let expected: BTreeMap<usize, &str> = expected_answers(&text)?.into_iter().collect();
    let script = calls.iter().flat_map(|(_, call)| call.encode()).collect();
    let output = String::from_utf8_lossy(&run(command, script)?).into_owned();
    let mut lines = output.lines();
    let mut differences = 0;
    for (place, call) in &calls {
        let found = lines.next().unwrap_or("no answer");
        let Some(expected) = expected.get(place) else { continue };
        if !as_expected(expected, found) {
            differences += 1;
            if differences > SHOWN_DIFFERENCES {
                continue;
            }
            println!("line {}: {}", place + 1, shown(&call_words(call)));
            println!("  expected: {expected}");
            println!("  program:  {}", shown(found));
            if let Some(number) = found.split(' ').next().and_then(|number| number.parse().ok()) {
                if number != 0 && is_of_library(call.tag()) {
                    println!("  refused {number}: {}", refusal_words(call, number));
                }
            }
        }
    }
    println!("twin: {} figures compared, {differences} differences", expected.len());
    Ok(differences == 0)
}

#[cfg(test)]
mod tests {
    use super::*;

    #[test]
    fn expected_answers_may_stop_short() {
        assert!(as_expected("0 3 5", "0 3 5"));
        assert!(!as_expected("0 3 5", "0 3 55"));
        assert!(as_expected("0 3 ..", "0 3 5"));
        assert!(as_expected("0 3 ..", "0 3"));
        assert!(!as_expected("0 3 ..", "0 35"));
    }

    #[test]
    fn wrong_lines_are_named() {
        let wrong = calls_of("# a comment\ngrowth 1\ngrowth x\n").unwrap_err();
        assert!(wrong.starts_with("line 3: "), "{wrong}");
        assert!(expected_answers("> 0\n").is_err());
        assert_eq!(expected_answers("growth 0\n> 0 1000000000\n"), Ok(vec![(0, "0 1000000000")]));
    }
}
