//! The model and the recorded answers beside the Rust.
//!
//!     beside compare FAMILY SEED ROOM    compares the model and the Rust on one family of cases
//!     beside compare-at DEPTH FAMILY SEED ROOM   the same at another depth, by the Rust that was altered to it
//!     beside record FOLDER SEED ROOM     writes the Rust's answers into the folder
//!     beside families                    lists the families
//!     beside nested                      lists those with includes
//!     beside start DEPTH FORMAT PROPERTY  says what the Rust reads from its default places
//!
//! ROOM is a directory in which archives are written out as files. FOLDER is that of the crates, each with its data.

#[path = "beside/both.rs"]
mod both;
mod ending;
#[path = "beside/families.rs"]
mod families;
#[path = "beside/recording.rs"]
mod recording;
#[path = "beside/rust.rs"]
mod rust;

use both::Both;
use oracle::resource_manager::DEPTH;
use rust::Room;
use std::process::ExitCode;

fn main() -> ExitCode {
    let words: Vec<String> = std::env::args().skip(1).collect();
    let words: Vec<&str> = words.iter().map(String::as_str).collect();
    let result = match words[..] {
        ["compare", family, seed, room] => compare(DEPTH.into(), family, seed, room),
        ["compare-at", depth, family, seed, room] => number(depth).and_then(|depth| compare(depth, family, seed, room)),
        ["record", folder, seed, room] => record(folder, seed, room),
        ["families"] => Ok(families::names().join("\n")),
        ["nested"] => Ok(families::NESTED.join("\n")),
        ["start", depth, format, property] => start(depth, format, property),
        _ => Err("usage: as the top of beside.rs says".to_string()),
    };
    ending::told(result)
}

fn number<T: std::str::FromStr>(word: &str) -> Result<T, String> {
    word.parse().map_err(|_| format!("no number: {word}"))
}

fn compare(depth: u64, family: &str, seed: &str, room: &str) -> Result<String, String> {
    let run = families::find(family).ok_or(format!("no such family: {family}"))?;
    let mut both = Both::new(Room::new(room), depth);
    run(&mut both, number(seed)?)?;
    both.counts.report()
}

fn start(depth: &str, format: &str, property: &str) -> Result<String, String> {
    Ok(rust::said_of_start(number(depth)?, number(format)?, &records::unhex(property)?))
}

fn record(folder: &str, seed: &str, room: &str) -> Result<String, String> {
    recording::record(folder, number(seed)?, &mut Room::new(room))
}
