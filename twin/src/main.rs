//! A second program for the rules of the scope of work: a model written from
//! the documents alone, and the means to compare the first program with it.

mod answers;
mod commands;
mod desk;
mod floats;
mod generate;
mod model;
mod script;
mod words;

use std::io::{self, Write};
use std::process::ExitCode;

const USAGE: &str = "use:
  twin compare SEED CALLS COMMAND..     compares COMMAND's answers to scripts with the model's
  twin malformed SEED COUNT COMMAND..   the same, on scripts that end in a malformed field
  twin texts SEED COUNT COMMAND..       compares COMMAND's texts of returns with the model's
  twin sheets SEED COUNT COMMAND..      compares COMMAND's texts of old day sheets with the model's
  twin workbooks SEED COUNT COMMAND..   compares COMMAND's texts of workbooks with the model's
  twin figures FILE COMMAND..           compares COMMAND's answers with those in a text
  twin script < TEXT > SCRIPT           turns readable text into a script
  twin answers TEXT < ANSWERS           prints a text with its answers
  twin model < SCRIPT                   prints the model's answers to a script";

/// What a command found: whether all was well. None where it is no command.
fn carry_out(arguments: &[String]) -> Option<Result<bool, String>> {
    let words: Vec<&str> = arguments.iter().map(String::as_str).collect();
    Some(match words[..] {
        ["compare" | "malformed" | "texts" | "sheets" | "workbooks", seed, count, _, ..] => {
            let (seed, count) = (seed.parse().ok()?, count.parse().ok()?);
            let command = &arguments[3..];
            match words[0] {
                "compare" => commands::compare(seed, count, command),
                "malformed" => commands::malformed(seed, count, command),
                "texts" => commands::texts(seed, count, command),
                "sheets" => commands::sheets(seed, count, command),
                _ => commands::workbooks(seed, count, command),
            }
        }
        ["figures", file, _, ..] => commands::figures(file, &arguments[2..]),
        ["script"] => commands::script(),
        ["answers", text] => commands::answers(text),
        ["model"] => {
            let mut output = io::BufWriter::new(io::stdout().lock());
            let carried = desk::carry_out_script(&mut io::stdin().lock(), &mut output);
            let finished = carried.and_then(|()| output.flush());
            finished.map(|()| true).map_err(|error| error.to_string())
        }
        _ => return None,
    })
}

fn main() -> ExitCode {
    let arguments: Vec<String> = std::env::args().skip(1).collect();
    match carry_out(&arguments) {
        None => {
            eprintln!("{USAGE}");
            ExitCode::from(2)
        }
        Some(Ok(true)) => ExitCode::SUCCESS,
        Some(Ok(false)) => ExitCode::from(1),
        Some(Err(what)) => {
            eprintln!("twin: {what}");
            ExitCode::from(1)
        }
    }
}
