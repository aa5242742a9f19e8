//! Random texts, start-ups, archives and queries for the Rust crate `resource_manager`. Its answers are held to the model, and to the
//! Rust where document 01 admits the case to the run.
//!
//!     fuzz SECONDS SEED ROOM
//!
//! ROOM is a directory in which archives are written out as files, for the Rust.

#[cfg(feature = "rust")]
#[allow(dead_code)]
#[path = "beside/both.rs"]
mod both;
#[path = "fuzz/drawn.rs"]
mod drawn;
mod ending;
#[path = "fuzz/files.rs"]
mod files;
#[path = "fuzz/held.rs"]
mod held;
#[cfg(feature = "rust")]
#[allow(dead_code)]
#[path = "beside/rust.rs"]
mod rust;
#[cfg(feature = "rust")]
#[path = "fuzz/rusts.rs"]
mod rusts;
#[path = "fuzz/starts.rs"]
mod starts;

use cases::draw::Draw;
use held::Held;
use std::process::ExitCode;
use std::time::{Duration, Instant};

fn main() -> ExitCode {
    let words: Vec<String> = std::env::args().skip(1).collect();
    let result = match &words[..] {
        [seconds, seed, room] => fuzz(seconds, seed, room),
        _ => Err("usage: fuzz SECONDS SEED ROOM".to_string()),
    };
    ending::told(result)
}

fn number(word: &str) -> Result<u64, String> {
    word.parse().map_err(|_| format!("no number: {word}"))
}

fn fuzz(seconds: &str, seed: &str, room: &str) -> Result<String, String> {
    let end = Instant::now() + Duration::from_secs(number(seconds)?);
    // A refused lookup panics by design, and each such panic is caught; the hook would print them all.
    std::panic::set_hook(Box::new(|_| ()));
    let mut draw = Draw::new(number(seed)?, "fuzz");
    let mut held = Held::new(room);
    let mut turns = 0u64;
    while turns == 0 || Instant::now() < end {
        let seen = std::panic::catch_unwind(std::panic::AssertUnwindSafe(|| turn(&mut draw, &mut held)));
        let why = match seen {
            Ok(Ok(())) => None,
            Ok(Err(why)) => Some(why),
            Err(panic) => Some(format!("a panic: {}", held::words(&*panic))),
        };
        if let Some(why) = why {
            return Err(format!("seed {seed}, turn {turns}: {why}"));
        }
        turns += 1;
    }
    held.counts.report().map(|report| format!("{report}; seed {seed}"))
}

fn turn(draw: &mut Draw, held: &mut Held) -> Result<(), String> {
    if draw.one_in(4) {
        return held.build(&drawn::files(draw));
    }
    let (source, queries) = drawn::source(draw);
    held.ask(&source, &queries)
}
