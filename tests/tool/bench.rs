//! The port, the Rust, Xlib and xcb-xrm side by side, on the same inputs, in one run.
//!
//!     bench time ROOM                times and memory, as tables of readings, of lookups, of walks, of boards and of writings
//!     bench cases ROOM               lists what can be counted, as CASE/SIDE, and how many calls that is
//!     bench count CASE/SIDE ROOM     those calls in `measured`, for an instruction counter
//!     bench counted FILE ROOM        tables of what was counted: lines of CASE/SIDE and a number
//!
//! ROOM is a directory for the files that all but the port read. The program starts itself as
//! `bench try CASE/SIDE ROOM` and `bench held CASE/SIDE ROOM`.

#[path = "bench/boards.rs"]
mod boards;
#[path = "bench/c_libraries.rs"]
mod c_libraries;
#[path = "bench/children.rs"]
mod children;
#[path = "bench/inputs.rs"]
mod inputs;
#[path = "bench/lookup_inputs.rs"]
mod lookup_inputs;
#[path = "bench/lookups.rs"]
mod lookups;
#[path = "bench/readings.rs"]
mod readings;
#[path = "bench/table.rs"]
mod table;
#[path = "bench/timing.rs"]
mod timing;
#[path = "bench/walks.rs"]
mod walks;
#[path = "bench/writings.rs"]
mod writings;

use c_libraries::Library;
use std::collections::HashMap;
use std::process::ExitCode;
use table::{Cell, ABSENT};

fn main() -> ExitCode {
    let words: Vec<String> = std::env::args().skip(1).collect();
    let words: Vec<&str> = words.iter().map(String::as_str).collect();
    match words[..] {
        ["time", room] => show_all(room),
        ["cases", room] => list_cases(room),
        ["count", what, room] => {
            let (case, side) = case_and_side(what);
            with_work(case, side, room, &mut measured);
        }
        ["counted", file, room] => show_counted(file, room),
        ["try", what, room] => {
            let (case, side) = case_and_side(what);
            children::work(case, side, room);
        }
        ["held", what, room] => {
            let (case, side) = case_and_side(what);
            children::count_held(case, side, room);
        }
        _ => {
            eprintln!("usage: bench time ROOM | cases ROOM | count CASE/SIDE ROOM | counted FILE ROOM");
            return ExitCode::FAILURE;
        }
    }
    ExitCode::SUCCESS
}

/// Who reads, or looks up.
#[derive(Clone, Copy, PartialEq)]
enum Side {
    Port,
    Rust,
    Xlib,
    /// With the strings of queries turned to quarks beforehand.
    XlibByQuarks,
    XcbXrm,
}

impl Side {
    const ALL: [Self; 5] = [Self::Port, Self::Rust, Self::Xlib, Self::XlibByQuarks, Self::XcbXrm];

    fn name(self) -> &'static str {
        match self {
            Self::Port => "port",
            Self::Rust => "rust",
            Self::Xlib => "xlib",
            Self::XlibByQuarks => "xlib-by-quarks",
            Self::XcbXrm => "xcb-xrm",
        }
    }

    fn title(self) -> &'static str {
        match self {
            Self::Port => "port",
            Self::Rust => "Rust",
            Self::Xlib => "Xlib",
            Self::XlibByQuarks => "Xlib by quarks",
            Self::XcbXrm => "xcb-xrm",
        }
    }

    /// None for the port and the Rust, and for a library that is not installed.
    fn library(self) -> Option<Library> {
        match self {
            Self::Port | Self::Rust => None,
            Self::Xlib => c_libraries::xlib(),
            Self::XlibByQuarks => c_libraries::xlib_by_quarks(),
            Self::XcbXrm => c_libraries::xcb_xrm(),
        }
    }
}

fn case_and_side(what: &str) -> (&str, Side) {
    let (case, side) = what.split_once('/').expect("a case and a side");
    (case, Side::ALL.into_iter().find(|of| of.name() == side).expect("a side"))
}

fn show_all(room: &str) {
    readings::time_all(room);
    let compared = lookups::time_all(room);
    walks::time_all();
    boards::time_all();
    writings::time_all(room);
    children::say_held(room);
    let lines: Vec<String> = readings::differing(room).into_iter().chain(compared.lines()).collect();
    println!("\nRead or answered otherwise than by the port{}", if lines.is_empty() { ": nothing." } else { ":\n" });
    lines.iter().for_each(|line| println!("- {line}"));
}

fn list_cases(room: &str) {
    for reading in readings::all(room) {
        let sides = [Side::Port].into_iter().chain(readings::OTHERS).filter(|side| reading.tried(*side).is_ok());
        sides.for_each(|side| println!("{}/{} 1", reading.case.name, side.name()));
    }
    for asking in lookups::all() {
        let sides = Side::ALL.into_iter().filter(|side| asking.tried(*side, room).is_ok());
        sides.for_each(|side| println!("{}/{} {}", asking.name(), side.name(), asking.counted()));
    }
    walks::all().for_each(|walk| println!("{}/{} {}", walk.name, Side::Port.name(), walk.calls));
    boards::all().for_each(|board| println!("{}/{} 1", board.name, Side::Port.name()));
    for writing in writings::all(room) {
        let sides = [Side::Port].into_iter().chain(writings::OTHERS).filter(|side| writing.tried(*side).is_ok());
        sides.for_each(|side| println!("{}/{} 1", writing.name, side.name()));
    }
}

/// Prepares a case for a side, and hands on the work: a reading or a writing that is not the first, or lookups.
fn with_work(case: &str, side: Side, room: &str, hand_on: &mut dyn FnMut(&mut dyn FnMut())) {
    if let Some(reading) = readings::find(case, room) {
        let mut reader = reading.reader(side).expect("a side that is there");
        let mut call = || {
            reader.read();
            reader.free();
        };
        call();
        return hand_on(&mut call);
    }
    if let Some(walk) = walks::find(case) {
        let mut work = walk.work();
        work();
        return hand_on(&mut work);
    }
    if let Some(board) = boards::find(case) {
        let mut work = board.work();
        work();
        return hand_on(&mut work);
    }
    if let Some(writing) = writings::find(case, room) {
        let mut work = writing.work(side).expect("a side that is there");
        work();
        return hand_on(&mut work);
    }
    let asking = lookups::find(case).expect("a case");
    let asker = asking.asker(side).expect("a side that is there");
    hand_on(&mut || asker.ask(asking.counted()));
}

/// What an instruction counter counts.
#[no_mangle]
#[inline(never)]
fn measured(work: &mut dyn FnMut()) {
    work();
}

fn show_counted(file: &str, room: &str) {
    let text = std::fs::read_to_string(file).expect("what was counted");
    let counted: HashMap<&str, f64> =
        text.lines().filter_map(|line| line.split_once(' ')).map(|(what, n)| (what, n.parse().expect("a number"))).collect();
    let cell = |case: &str, side: Side| counted.get(&format!("{case}/{}", side.name())[..]).map_or(ABSENT, |n| Cell::Figure(*n));
    let row = |what: &str, case: &str, others: &[Side]| {
        let others: Vec<Cell> = others.iter().map(|side| cell(case, *side)).collect();
        table::row(what, cell(case, Side::Port), &others);
    };
    table::head("Reading, then freed", "instructions", &readings::OTHERS);
    readings::all(room).for_each(|reading| row(reading.case.what, reading.case.name, &readings::OTHERS));
    table::head("Lookup", "instructions", &lookups::OTHERS);
    lookups::all().for_each(|asking| row(&asking.what(), asking.name(), &lookups::OTHERS));
    table::head("Walks and additions", "instructions", &[]);
    walks::all().for_each(|walk| row(&walk.what, walk.name, &[]));
    table::head("A board", "instructions", &[]);
    boards::all().for_each(|board| row(&board.what, &board.name, &[]));
    table::head("Writing out", "instructions", &writings::OTHERS);
    writings::all(room).for_each(|writing| row(&writing.what, writing.name, &writings::OTHERS));
}
