//! The port beside the model and the Rust.
//!
//!     port_beside compare FAMILY SEED TIMES ROOM    compares one family of readings
//!     port_beside families                          lists the families
//!     port_beside compare-depths FAMILY SEED TIMES ROOM   compares one family with includes at depths other than the Rust's
//!     port_beside nested                            lists these families
//!     port_beside ask FAMILY SEED TIMES ROOM        compares one family of lookups
//!     port_beside ask-window FAMILY SEED TIMES ROOM the same by the dictionary window's lookups
//!     port_beside inquiries                         lists the families of lookups
//!     port_beside strike FAMILY SEED TIMES ROOM     tries the third term on one family of archives
//!     port_beside compare-without FAMILY SEED TIMES ROOM   the same by the comparing call
//!     port_beside strikes                           lists the families of archives
//!     port_beside strike-depths FAMILY SEED TIMES ROOM    the third term at other depths, by main texts' comparing call too
//!     port_beside write FAMILY SEED TIMES ROOM      compares the writing of one family of images
//!     port_beside migrate FAMILY SEED TIMES ROOM    compares the carrying over of one family of images, with rows of three words
//!     port_beside writings                          lists the families of images
//!     port_beside walk FAMILY SEED TIMES ROOM       compares the walks and additions of one family
//!     port_beside walks                             lists the families of walks and additions
//!     port_beside board FAMILY SEED TIMES ROOM      compares the calls of a board over one family of histories
//!     port_beside boards                            lists the families of histories
//!     port_beside order FAMILY SEED TIMES ROOM      rearranges one family of texts and packs
//!     port_beside orders                            lists the families of texts and packs
//!     port_beside test NAME ROOM                    runs one test
//!     port_beside tests                             lists the tests
//!     port_beside fault LABEL both|rust|third|start-ups ROOM   compares a faulty port: 'faults' asks that this fails
//!
//! ROOM is a directory in which archives are written out as files, for the Rust.

#[path = "port/asking.rs"]
mod asking;
#[path = "port/board_buffers.rs"]
mod board_buffers;
#[path = "port/board_faults.rs"]
mod board_faults;
#[path = "port/board_tests.rs"]
mod board_tests;
#[path = "port/boards.rs"]
mod boards;
#[path = "port/both.rs"]
mod both;
#[path = "port/comparing.rs"]
mod comparing;
#[path = "port/comparing_faults.rs"]
mod comparing_faults;
#[path = "port/comparing_tests.rs"]
mod comparing_tests;
#[path = "port/depth_tests.rs"]
mod depth_tests;
mod ending;
#[path = "port/faults.rs"]
mod faults;
#[path = "port/fenced.rs"]
mod fenced;
#[path = "port/image_tests.rs"]
mod image_tests;
#[path = "port/inquiry.rs"]
mod inquiry;
#[path = "port/lending.rs"]
mod lending;
#[path = "port/lookup_faults.rs"]
mod lookup_faults;
#[path = "port/lookup_tests.rs"]
mod lookup_tests;
#[path = "port/migrating.rs"]
mod migrating;
#[path = "port/migrating_faults.rs"]
mod migrating_faults;
#[path = "port/migrating_tests.rs"]
mod migrating_tests;
#[path = "port/orders.rs"]
mod orders;
#[path = "port/path_faults.rs"]
mod path_faults;
#[path = "port/query_tests.rs"]
mod query_tests;
#[path = "port/run.rs"]
mod run;
#[cfg(feature = "rust")]
#[allow(dead_code)]
#[path = "beside/rust.rs"]
mod rust;
#[path = "port/start_up_faults.rs"]
mod start_up_faults;
#[path = "port/start_up_tests.rs"]
mod start_up_tests;
#[path = "port/tests.rs"]
mod tests;
#[path = "port/third.rs"]
mod third;
#[path = "port/walking.rs"]
mod walking;
#[path = "port/walking_faults.rs"]
mod walking_faults;
#[path = "port/walking_tests.rs"]
mod walking_tests;
#[path = "port/window_faults.rs"]
mod window_faults;
#[path = "port/window_tests.rs"]
mod window_tests;
#[path = "port/writing.rs"]
mod writing;
#[path = "port/writing_faults.rs"]
mod writing_faults;
#[path = "port/writing_tests.rs"]
mod writing_tests;

use asking::Lookups;
use boards::Boards;
use cases::chains::{self, every_combination, Combination};
use cases::images;
use cases::lookups;
use cases::readings::{self, Extent};
use cases::struck;
use cases::walks;
use comparing::Comparing;
use inquiry::Inquiry;
use migrating::Migrating;
use orders::Orders;
use records::Start;
use run::Run;
use std::collections::BTreeSet;
use std::process::ExitCode;
use third::Third;
use walking::Walking;
use writing::Writing;

fn main() -> ExitCode {
    let words: Vec<String> = std::env::args().skip(1).collect();
    let words: Vec<&str> = words.iter().map(String::as_str).collect();
    let result = match words[..] {
        ["compare", family, seed, times, room] => compare(family, seed, times, room),
        ["families"] => Ok(names(&families())),
        ["compare-depths", family, seed, times, room] => compare_depths(family, seed, times, room),
        ["nested"] => Ok(NESTED.join("\n")),
        ["ask", family, seed, times, room] => ask(asking::PORTS, family, seed, times, room),
        ["ask-window", family, seed, times, room] => ask(asking::WINDOWS, family, seed, times, room),
        ["inquiries"] => Ok(names(&lookups::FAMILIES)),
        ["strike", family, seed, times, _] => strike(family, seed, times),
        ["compare-without", family, seed, times, _] => compare_without(family, seed, times),
        ["strikes"] => Ok(names(&strikes())),
        ["strike-depths", family, seed, times, _] => strike_depths(family, seed, times),
        ["write", family, seed, times, _] => write(family, seed, times),
        ["migrate", family, seed, times, _] => migrate(family, seed, times),
        ["writings"] => Ok(names(&images::FAMILIES)),
        ["walk", family, seed, times, _] => walk(family, seed, times),
        ["walks"] => Ok(names(&walks::FAMILIES)),
        ["board", family, seed, times, _] => board(family, seed, times),
        ["boards"] => Ok(names(&cases::boards::FAMILIES)),
        ["order", family, seed, times, room] => order(family, seed, times, room),
        ["orders"] => Ok(names(&cases::orders::FAMILIES)),
        ["test", name, room] => tests::test(name, room),
        ["tests"] => Ok(tests::names().join("\n")),
        ["fault", label, with, room] => faults::one(label, with, room),
        _ => Err("usage: as the top of port_beside.rs says".to_string()),
    };
    ending::told(result)
}

fn number<T: std::str::FromStr>(word: &str) -> Result<T, String> {
    word.parse().map_err(|_| format!("no number: {word}"))
}

fn extent(seed: &str, times: &str) -> Result<Extent, String> {
    Ok(Extent { seed: number(seed)?, times: number(times)? })
}

/// Readings of main texts and of chains.
fn families() -> Vec<(&'static str, readings::Family)> {
    readings::FAMILIES.into_iter().chain(chains::FAMILIES).collect()
}

/// Archives of main texts and of chains.
fn strikes() -> Vec<(&'static str, struck::Family)> {
    struck::FAMILIES.into_iter().chain(chains::STRIKES).collect()
}

fn names<T>(families: &[(&str, T)]) -> String {
    families.iter().map(|(name, _)| *name).collect::<Vec<_>>().join("\n")
}

fn find<T: Copy>(families: &[(&str, T)], name: &str) -> Result<T, String> {
    families.iter().find(|(of, _)| *of == name).map(|(_, family)| *family).ok_or(format!("no such family: {name}"))
}

/// The family of all chains must meet every combination of texts.
fn compare(name: &str, seed: &str, times: &str, room: &str) -> Result<String, String> {
    let family = find(&families(), name)?;
    let mut run = Run::new(both::PORTS, room);
    let mut met = BTreeSet::new();
    family(extent(seed, times)?, &mut |source| {
        if let Start::Chain(start_up) = &source.start {
            met.insert(Combination::of(start_up));
        }
        run.see(source).map(drop)
    })?;
    if name == "chains" {
        every_combination(&met)?;
    }
    run.counts.report()
}

/// Depths other than the Rust's: the least, around 20 and 100, and those over 100 whose low bits are not.
const DEPTHS: [u64; 17] = [0, 1, 20, 2, 101, 3, 20, 19, 21, 99, 5, 102, 256, 65_536 + 20, (1 << 32) + 3, 1 << 63, u64::MAX];

/// The families that have includes.
const NESTED: [&str; 12] = [
    "include-lines",
    "dotted-by-name",
    "dotted-ways",
    "limits",
    "near-limits",
    "archives",
    "realistic",
    "damaged-archives",
    "chains-by-name",
    "chain-limits",
    "chains",
    "chains-near-limits",
];

/// Each reading at one of the depths in turn.
fn compare_depths(name: &str, seed: &str, times: &str, room: &str) -> Result<String, String> {
    let family = find(&families(), name)?;
    let mut run = Run::new(both::PORTS, room);
    let mut turn = 0;
    family(extent(seed, times)?, &mut |source| {
        turn += 1;
        run.see(&source.at(DEPTHS[turn % DEPTHS.len()])).map(drop)
    })?;
    run.counts.report()
}

/// The third term at small depths and at 20, by two readings and, of a main text, by the comparing call.
fn strike_depths(family: &str, seed: &str, times: &str) -> Result<String, String> {
    let family = find(&strikes(), family)?;
    let mut third = Third::new(both::PORTS, port::get_bytes_word, |answers| answers);
    let mut comparing = Comparing::new(comparing::PORTS);
    let mut turn = 0;
    family(extent(seed, times)?, &mut |source, which, queries| {
        turn += 1;
        let source = source.at([1, 2, 20, 3, 0, 20, 4][turn % 7]);
        third.see(&source, which, queries)?;
        match source.start {
            Start::Text(_) => comparing.see(&source, which, queries),
            Start::Chain(_) => Ok(()),
        }
    })?;
    let by_two = third.counts.report()?;
    Ok(format!("{by_two}; {} by the comparing call too", comparing.counts.files))
}

fn ask(lookups: Lookups, family: &str, seed: &str, times: &str, room: &str) -> Result<String, String> {
    let family = find(&lookups::FAMILIES, family)?;
    let mut inquiry = Inquiry::new(both::PORTS, lookups, room);
    family(extent(seed, times)?, &mut |source, queries| inquiry.ask(source, queries))?;
    inquiry.counts.report_family()
}

fn strike(family: &str, seed: &str, times: &str) -> Result<String, String> {
    let family = find(&strikes(), family)?;
    let mut third = Third::new(both::PORTS, port::get_bytes_word, |answers| answers);
    family(extent(seed, times)?, &mut |source, which, queries| third.see(source, which, queries))?;
    third.counts.report()
}

fn compare_without(family: &str, seed: &str, times: &str) -> Result<String, String> {
    let family = find(&strikes(), family)?;
    let mut comparing = Comparing::new(comparing::PORTS);
    family(extent(seed, times)?, &mut |source, which, queries| comparing.see(source, which, queries))?;
    comparing.counts.report()
}

fn write(family: &str, seed: &str, times: &str) -> Result<String, String> {
    let family = find(&images::FAMILIES, family)?;
    let mut writing = Writing::new(port::write_word);
    family(extent(seed, times)?, &mut |image| writing.see(image))?;
    writing.counts.report()
}

fn migrate(family: &str, seed: &str, times: &str) -> Result<String, String> {
    let family = find(&images::FAMILIES, family)?;
    let mut migrating = Migrating::new(port::migrate_word);
    family(extent(seed, times)?, &mut |image| migrating.see(image))?;
    migrating.counts.report()
}

fn walk(family: &str, seed: &str, times: &str) -> Result<String, String> {
    let family = find(&walks::FAMILIES, family)?;
    let mut walking = Walking::new(walking::PORTS);
    family(extent(seed, times)?, &mut |image, turns| walking.see(image, turns))?;
    walking.counts.report()
}

fn board(family: &str, seed: &str, times: &str) -> Result<String, String> {
    let family = find(&cases::boards::FAMILIES, family)?;
    let extent = extent(seed, times)?;
    let mut boards = Boards::new(boards::PORTS, extent.seed);
    family(extent, &mut |history| boards.see(history))?;
    boards.counts.report()
}

/// Both readings have a directory of their own for the Rust's files.
fn order(family: &str, seed: &str, times: &str, room: &str) -> Result<String, String> {
    let family = find(&cases::orders::FAMILIES, family)?;
    let rooms = ["first", "second"].map(|name| format!("{room}/{name}"));
    rooms.iter().try_for_each(std::fs::create_dir).map_err(|why| format!("no directory in {room}: {why}"))?;
    let mut orders = Orders::new([&rooms[0], &rooms[1]]);
    family(extent(seed, times)?, &mut |pair, queries| orders.see(pair, queries))?;
    orders.counts.report()
}
