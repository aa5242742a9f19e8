//! Tests of the port by name: document 01's cases, buffers and texts of every length, and faults that
//! the comparison must see.

use crate::asking;
use crate::both::{self, shown, word_of, Both, Calls, Shape, SHAPES};
use crate::faults;
use crate::fenced::zero_bytes;
use crate::run::Run;
use crate::{
    board_faults, board_tests, boards, comparing, comparing_faults, comparing_tests, depth_tests, lookup_faults, lookup_tests,
    migrating_faults, migrating_tests, path_faults, start_up_faults, start_up_tests, walking, walking_faults, walking_tests,
    window_faults, window_tests, writing_faults, writing_tests,
};
use cases::archives;
use cases::draw::Draw;
use cases::limits::Edge;
use cases::named_chains;
use cases::readings::{at_limits, Extent, Family, FAMILIES};
use model::image;
use model::limits::{ARCHIVE_BYTES, BODIES_BYTES, CONTENTS_WORDS, DEFAULT_DEPTH, GREATEST_DEPTH, TEXT_BYTES};
use records::Source;

pub type Test = fn(Calls) -> Result<String, String>;

const TESTS: [(&str, Test); 6] = [
    ("limits", limits),
    ("short buffers", short_buffers),
    ("long texts and archives", long_texts),
    ("order of refusals", order_of_refusals),
    ("text within the archive", text_within_the_archive),
    ("depths", depth_tests::depths),
];

/// Cases at the limits, and sentences of document 02 (iii), that have a line of their own.
const NAMED: [&str; 53] = [
    "16 parts",
    "17 parts",
    "512 lines",
    "513 lines",
    "includes itself, then an entry",
    "includes itself twice",
    "4,096 opens",
    "4,097 opens",
    "store of 32,768",
    "20,000 bytes twice",
    "32,769 newlines",
    "64 files in a chain",
    "64 files in a ring",
    "two texts of 32,768",
    "a long second text",
    "every long text that is not used",
    "no archive, and a long text that is used",
    "511 entries and one",
    "512 entries and one",
    "a store of 32,768 in two texts",
    "a store of 32,769 in two texts",
    "4,096 opens in two texts",
    "4,097 opens in two texts",
    "100 depths in each",
    "17 parts in the second",
    "a dot is dropped",
    "two dots remove the part before them",
    "over folder and name joined",
    "going above the root finds nothing",
    "an empty part finds nothing",
    "a last dot finds nothing",
    "two last dots find nothing",
    "a part of other dots is a name",
    "two dots remove a part that no file's name has",
    "two dots remove a file's name",
    "two dots remove what is no folder",
    "a result of 96 bytes, and of 97",
    "two dots remove a long part",
    "a long path of short parts",
    "a deep path that comes back",
    "a path of 4,000 bytes, and longer",
    "a found file's folder is not the way's",
    "a found file's folder is its own",
    "a found file's folder is not its includer's",
    "above the root from a found file's folder",
    "a folder that is a file too",
    "includes itself by a folder and back",
    "includes itself by ways of 6,400 bytes in all",
    "4,096 opens by dots",
    "4,097 opens by dots",
    "a name that fills a text",
    "a part that fills a text",
    "48 folders down, up and down",
];

/// The cases at the limits, of main texts and of start-ups.
fn edges() -> Vec<Edge> {
    at_limits().into_iter().chain(named_chains::at_limits()).collect()
}

pub fn names() -> Vec<&'static str> {
    let readings = NAMED.into_iter().chain(TESTS.map(|(name, _)| name)).chain([
        "faults",
        "faults of names with dots",
        "faults of the depth",
    ]);
    let start_ups = start_up_tests::names().chain(["faults of start-ups"]);
    let lookups = lookup_tests::names().into_iter().chain(["faults of lookups"]);
    let window = window_tests::names().into_iter().chain(["faults of the window"]);
    let comparing = comparing_tests::names().chain(["faults of the comparing call"]);
    let writing = writing_tests::names().chain(["faults of the writing call"]);
    let walking = walking_tests::names().chain(["faults of walks and additions"]);
    let migrating = migrating_tests::names().chain(["faults of migrations"]);
    let boards = board_tests::names().chain(["faults of boards"]);
    let images = writing.chain(walking).chain(migrating).chain(boards);
    readings.chain(start_ups).chain(lookups).chain(window).chain(comparing).chain(images).collect()
}

pub fn test(name: &str, room: &str) -> Result<String, String> {
    if name == "faults" {
        return faults::all_seen(room);
    }
    if name == "faults of names with dots" {
        return path_faults::all_seen(room);
    }
    if name == "faults of the depth" {
        return depth_tests::faults_seen();
    }
    if name == "faults of start-ups" {
        return start_up_faults::all_seen(room);
    }
    if name == "faults of lookups" {
        return lookup_faults::all_seen(room);
    }
    if name == "faults of the window" {
        return window_faults::all_seen(room);
    }
    if name == "faults of the comparing call" {
        return comparing_faults::all_seen(room);
    }
    if name == "faults of the writing call" {
        return writing_faults::all_seen(room);
    }
    if name == "faults of walks and additions" {
        return walking_faults::all_seen(room);
    }
    if name == "faults of migrations" {
        return migrating_faults::all_seen(room);
    }
    if name == "faults of boards" {
        return board_faults::all_seen(room);
    }
    if let Some(result) = board_tests::test(name, boards::PORTS) {
        return result;
    }
    if let Some(result) = lookup_tests::test(name, asking::PORTS, room) {
        return result;
    }
    if let Some(result) = window_tests::test(name, asking::WINDOWS, room) {
        return result;
    }
    if let Some(result) = comparing_tests::test(name, comparing::PORTS) {
        return result;
    }
    if let Some(result) = writing_tests::test(name, port::write_word) {
        return result;
    }
    if let Some(result) = walking_tests::test(name, walking::PORTS) {
        return result;
    }
    if let Some(result) = migrating_tests::test(name, port::migrate_word) {
        return result;
    }
    if let Some(test) = TESTS.iter().chain(&start_up_tests::TESTS).find(|(of, _)| *of == name).map(|(_, test)| *test) {
        return test(both::PORTS);
    }
    let mut edges = edges();
    edges.retain(|edge| edge.label == name && NAMED.contains(&name));
    let mut run = Run::new(both::PORTS, room);
    for edge in &edges {
        at_edge(&mut run.both, edge)?;
        run.see(&edge.source).map(drop)?;
    }
    let by_the_rust = run.counts.beside_the_rust;
    match &edges[..] {
        [] => Err(format!("no such test: {name}")),
        [edge] if by_the_rust > 0 => Ok(format!("{}, beside the model and the Rust", shown(word_of(edge.expected)))),
        [edge] => Ok(format!("{}, beside the model", shown(word_of(edge.expected)))),
        _ => Ok(format!("{} readings beside the model, {by_the_rust} beside the Rust", edges.len())),
    }
}

/// A case at a limit gives what is expected, however the buffers are lent.
pub fn at_edge(both: &mut Both, edge: &Edge) -> Result<(), String> {
    for shape in SHAPES {
        let answer = both.compare_in(&edge.source, shape).map_err(|why| format!("{}: {why}", edge.label))?;
        if answer != edge.expected {
            return Err(format!("{}: {answer:?}, and not {:?}", edge.label, edge.expected));
        }
    }
    Ok(())
}

fn limits(calls: Calls) -> Result<String, String> {
    let mut both = Both::new(calls);
    let edges = edges();
    edges.iter().try_for_each(|edge| at_edge(&mut both, edge))?;
    Ok(format!("{} cases, each with buffers lent in {} ways", edges.len(), SHAPES.len()))
}

/// Every length that is too short is refused by 1, before anything else is looked at.
fn short_buffers(calls: Calls) -> Result<String, String> {
    let mut both = Both::new(calls);
    let good = Source::plain(b"a:1");
    let long = Source::text(vec![b'\n'; TEXT_BYTES + 1], Vec::new());
    let mut count = 0;
    let mut refused = |words: usize, bytes: usize| {
        for source in [&good, &long] {
            let answer = both.compare_in(source, Shape { words, bytes, at_end: count % 2 == 0 })?;
            if answer != Err(1) {
                return Err(format!("{words} words and {bytes} bytes: {answer:?}"));
            }
            count += 1;
        }
        Ok(())
    };
    for bytes in [0, 1, BODIES_BYTES - 1, BODIES_BYTES, BODIES_BYTES + 1] {
        (0..CONTENTS_WORDS).try_for_each(|words| refused(words, bytes))?;
    }
    for words in [CONTENTS_WORDS, CONTENTS_WORDS + 1] {
        (0..BODIES_BYTES).step_by(7).chain([BODIES_BYTES - 1]).try_for_each(|bytes| refused(words, bytes))?;
    }
    Ok(format!("{count} readings refused by 1"))
}

/// Texts and archives of more bytes than they may have, up to lengths of over 32 bits.
fn long_texts(calls: Calls) -> Result<String, String> {
    let mut both = Both::new(calls);
    let mut count = 0;
    for more in [0, 1, 2, 100, 32_767, 32_768, 32_769, 90_000, 200_000] {
        for b in [b'\n', b'a', b':', b'\\', b'!', b'#'] {
            let long = Source::plain(&vec![b; TEXT_BYTES + more]);
            if both.compare(&long)?.err() != (more > 0).then_some(2) {
                return Err(format!("a text of {} bytes", TEXT_BYTES + more));
            }
            count += 1;
        }
        let body = vec![b'!'; ARCHIVE_BYTES + more - 7];
        let archive = Source::with(b"#include \"p\"", &[(b"p", &body)]);
        if both.compare(&archive)?.err() != (more > 0).then_some(3) {
            return Err(format!("an archive of {} bytes", archive.archive.len()));
        }
        count += 1;
    }
    let Some(zeroes) = zero_bytes((1 << 32) + 100_000) else { return Ok(format!("{count} lengths of up to 18 bits")) };
    let (mut contents, mut bodies) = (vec![7; CONTENTS_WORDS], vec![7; BODIES_BYTES]);
    for more in [0, 2, 32_768, 32_769, 65_536, 100_000] {
        let long = &zeroes[..(1 << 32) + more];
        let text = (calls.read)(long, &[0, 0], &mut contents, &mut bodies);
        let archive = (calls.read)(b"a:1", long, &mut contents, &mut bodies);
        if (text, archive) != (2, 3) || contents.iter().any(|&w| w != 7) || bodies.iter().any(|&b| b != 7) {
            return Err(format!("lengths of {}: {} and {}", long.len(), shown(text), shown(archive)));
        }
        count += 2;
    }
    Ok(format!("{count} lengths of up to 33 bits"))
}

/// 1, then 2, then 3, then 15, then what the text meets; at 20 by the call that is given no depth.
fn order_of_refusals(calls: Calls) -> Result<String, String> {
    let mut both = Both::new(calls);
    let mut count = 0;
    for depth in [DEFAULT_DEPTH, GREATEST_DEPTH, GREATEST_DEPTH + 1] {
        for bits in 0..16 {
            let [short, long, bad, wide] = [1, 2, 4, 8].map(|bit| bits & bit != 0);
            let line: &[u8] = if wide { b"?????????????????a:\n" } else { b"a:\n" };
            let text = [line, &vec![b'\n'; if long { TEXT_BYTES } else { 9 }]].concat();
            let source = Source::text(text, if bad { vec![0] } else { vec![0, 0] }).at(depth);
            let shape = if short { Shape { words: 0, ..SHAPES[0] } } else { SHAPES[0] };
            let deep = depth > GREATEST_DEPTH;
            let met = [(short, 1), (long, 2), (bad, 3), (deep, 15), (wide, 5)].into_iter().find(|(is, _)| *is);
            let answer = both.compare_in(&source, shape)?;
            if answer.err() != met.map(|(_, number)| number) {
                return Err(format!("depth {depth}, short {short}, long {long}, bad {bad}, wide {wide}: {answer:?}"));
            }
            count += 1;
        }
    }
    Ok(format!("{count} readings"))
}

/// Both are lent for reading, so the same bytes may be lent as both.
fn text_within_the_archive(calls: Calls) -> Result<String, String> {
    let draw = &mut Draw::new(1, "text within the archive");
    let mut count = 0;
    for _ in 0..5_000 {
        let archive = archives::source(draw).0.archive;
        let text = &archive[draw.below(archive.len())..];
        let mut ports = (vec![7; CONTENTS_WORDS], vec![7; BODIES_BYTES]);
        let mut models = ports.clone();
        let word = (calls.read)(text, &archive, &mut ports.0, &mut ports.1);
        let read = image::read(&mut models.0, &mut models.1, &[text], &archive, GREATEST_DEPTH);
        let answer = read.map(|accepted| (accepted.entries, accepted.opens)).map_err(|refusal| refusal.number());
        if word != word_of(answer) || ports != models {
            return Err(format!("\"{}\" within \"{}\"", text.escape_ascii(), archive.escape_ascii()));
        }
        count += 1;
    }
    Ok(format!("{count} readings"))
}

/// What a faulty port is held to, what takes longest last.
pub fn whole_comparison(calls: Calls, room: &str) -> Result<(), String> {
    let mut run = Run::new(calls, room);
    let mut see = |name| family(name)(Extent { seed: 1, times: 1 }, &mut |source| run.compare(source).map(drop));
    see("limits")?;
    TESTS.iter().try_for_each(|(_, test)| test(calls).map(drop))?;
    ["archive-damage", "include-lines", "random"].into_iter().try_for_each(see)
}

/// The same with no model.
pub fn comparison_with_the_rust(calls: Calls, room: &str) -> Result<(), String> {
    let mut run = Run::new(calls, room);
    family("limits")(Extent { seed: 1, times: 1 }, &mut |source| run.see_by_the_rust(source).map(drop))
}

fn family(name: &str) -> Family {
    FAMILIES.iter().find(|(of, _)| *of == name).expect("a family").1
}
