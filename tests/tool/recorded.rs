//! Works on the recorded answers; needs no Rust under test.
//!
//!     recorded check FILE..    every line of the files is well formed and is what the model answers
//!     recorded antt FILE       the lines of a file as a module for the prover, on standard output

mod ending;

use model::lookup::Number;
use records::{model_answer, parse_line, write_line, Answer, Case, Kind, Start};
use std::process::ExitCode;

fn main() -> ExitCode {
    let words: Vec<String> = std::env::args().skip(1).collect();
    let result = match words.split_first() {
        Some((command, files)) if command == "check" && !files.is_empty() => check(files),
        Some((command, [file])) if command == "antt" => antt(file),
        _ => Err("usage: recorded check FILE.. | recorded antt FILE".to_string()),
    };
    ending::told(result)
}

fn read_lines(file: &str) -> Result<Vec<String>, String> {
    let text = std::fs::read_to_string(file).map_err(|error| format!("{file}: {error}"))?;
    if !text.ends_with('\n') {
        return Err(format!("{file}: empty, or the last line has no newline"));
    }
    Ok(text.lines().map(str::to_string).collect())
}

fn check(files: &[String]) -> Result<String, String> {
    let mut count = 0;
    for file in files {
        for (index, line) in read_lines(file)?.iter().enumerate() {
            check_line(line).map_err(|why| format!("{file} line {}: {why}", index + 1))?;
            count += 1;
        }
    }
    Ok(format!("{count} answers"))
}

fn check_line(line: &str) -> Result<(), String> {
    let (case, recorded) = parse_line(line)?;
    if write_line(&case, &recorded) != line {
        return Err("it is written in another form".to_string());
    }
    let answer = model_answer(&case).map_err(|refusal| format!("the model refuses it: {}", refusal.number()))?;
    if answer != recorded {
        return Err(format!("the model gives {}", write_line(&case, &answer)));
    }
    Ok(())
}

fn antt(file: &str) -> Result<String, String> {
    let lines = read_lines(file)?;
    let rows = lines.iter().map(|line| parse_line(line).and_then(|(case, answer)| short_row(&case, &answer)));
    Ok(module(&rows.collect::<Result<Vec<_>, _>>()?))
}

/// A prover evaluates what it reads in a row, so rows are kept short.
fn short_row(case: &Case, answer: &Answer) -> Result<String, String> {
    match &case.source.start {
        Start::Text(text) if text.len() <= 40 && case.source.archive.len() <= 60 => Ok(row(case, text, answer)),
        _ => Err(format!("no row for this: {}", write_line(case, answer))),
    }
}

const HEAD: &str = "\
-- Made by `make recorded-antt` from the recorded answers of the Rust: the definition gives each of them.
use Rattle.std.specs.Prelude.{true, false, List, [], ◌∷◌, map, ◌≡◌, refl, pos, negsuc}
use Rattle.std.proofs.Math.Option.{some, none}
use Rattle.definition.specs.Value.{number, not_a_number}
use Rattle.definition.specs.Evaluation.{definition, written, reads, bytes, truth, value, Row, ◌~◌, entry, read, found, well_formed, ask_bytes, ask_string, ask_bool, ask_value}

rows : List Row
rows =
";

const TAIL: &str = "
    ∷ []

agree : map (λ (r : Row). r.defined) rows ≡ map (λ (r : Row). r.recorded) rows
unfolding definition written read found well_formed ask_bytes ask_string ask_bool ask_value rows
agree = refl";

/// The rows as a module of the definition.
fn module(rows: &[String]) -> String {
    format!("{HEAD}    {}{TAIL}", rows.join("\n    ∷ "))
}

/// One case as a row: what the definition is asked, and what the Rust answered.
fn row(case: &Case, text: &[u8], answer: &Answer) -> String {
    let word = match case.kind {
        Kind::Read => "read",
        Kind::Bytes => "ask_bytes",
        Kind::String => "ask_string",
        Kind::Bool => "ask_bool",
        Kind::Value => "ask_value",
    };
    let mut asked = vec![text, &case.source.archive];
    if case.kind != Kind::Read {
        asked.extend([&case.query.name[..], &case.query.class]);
    }
    let asked: Vec<String> = asked.into_iter().map(list).collect();
    format!("{word} {} ~ {}", asked.join(" "), recorded(answer))
}

fn recorded(answer: &Answer) -> String {
    match answer {
        Answer::Read { opens, entries } => {
            let entries: String = entries.iter().map(|(key, value)| format!("entry {} {} ∷ ", list(key), list(value))).collect();
            if entries.is_empty() {
                return format!("reads {opens} []");
            }
            format!("reads {opens} ({entries}[])")
        }
        Answer::Bytes(found) => format!("bytes {}", option(found.as_ref().map(|bytes| list(bytes)))),
        Answer::Bool(found) => format!("truth {}", option(found.map(|is| is.to_string()))),
        Answer::Value(Number::Is(number)) => format!("value (some (number {}))", integer(*number)),
        Answer::Value(Number::NotANumber) => "value (some not_a_number)".to_string(),
        Answer::Value(Number::None) => "value none".to_string(),
    }
}

fn option(found: Option<String>) -> String {
    found.map_or("none".to_string(), |it| format!("(some {it})"))
}

/// An integer as the prover's library writes it: `negsuc n` is -1 - n.
fn integer(number: i64) -> String {
    if number < 0 {
        format!("(negsuc {})", -1 - i128::from(number))
    } else {
        format!("(pos {number})")
    }
}

/// Bytes as a list of numbers, in parentheses where it has an element.
fn list(bytes: &[u8]) -> String {
    if bytes.is_empty() {
        return "[]".to_string();
    }
    format!("({}[])", bytes.iter().map(|b| format!("{b} ∷ ")).collect::<String>())
}
