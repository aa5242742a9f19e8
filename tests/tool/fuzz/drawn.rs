//! What the fuzzing draws: sources with queries, and files for an archive.

use cases::chains::{chain, Combination};
use cases::damage::{damage_text, damaged};
use cases::draw::Draw;
use cases::{archives, crowded, dotted, realistic, texts};
use model::limits::{ARCHIVE_BYTES, ARCHIVE_FILES, FILE_NAME_BYTES, QUERY_BYTES, QUERY_PARTS, TEXT_BYTES};
use records::{Query, Source, Start};

/// A source, and queries of which some meet its entries.
pub fn source(draw: &mut Draw) -> (Source, Vec<Query>) {
    // Few near the limits of a reading, which take the model long.
    let (source, query) = match draw.below(100) {
        0 => (crowded::source(draw), texts::query(draw)),
        1..=12 => archives::source(draw),
        13..=20 => dotted::source(draw),
        21..=34 => plain(draw),
        35..=38 => long_value(draw),
        39..=50 => (realistic::source(draw, 30), realistic::query(draw)),
        51..=75 => start_up(draw),
        76 => long_start_up(draw),
        77..=90 => {
            let (mut source, query) = archives::source(draw);
            damage_text(draw, &mut source);
            (source, query)
        }
        _ => {
            let (mut source, query) = archives::source(draw);
            source.archive = damaged(draw, &source.archive);
            (source, query)
        }
    };
    // A start-up is also read by calls that are given no depth, and have the greatest.
    let source = match source.start {
        Start::Text(_) => source.at([100, 100, 100, 20, 20, 3, 2, 1, 0, 101][draw.below(10)]),
        Start::Chain(_) => source,
    };
    let other = texts::query(draw);
    let limit = limit_query(draw);
    (source, vec![swapped(&query), query, other, limit])
}

fn plain(draw: &mut Draw) -> (Source, Query) {
    let query = texts::query(draw);
    (Source::plain(&texts::text(draw, 8, &query)), query)
}

fn start_up(draw: &mut Draw) -> (Source, Query) {
    let combination = Combination::nth(draw.below(Combination::COUNT));
    chain(draw, combination)
}

/// A start-up of which one text is near the limit, used or not.
fn long_start_up(draw: &mut Draw) -> (Source, Query) {
    let (mut source, query) = start_up(draw);
    let long = vec![b'\n'; near(draw, TEXT_BYTES)];
    if let Start::Chain(chain) = &mut source.start {
        match draw.below(5) {
            0 => chain.property = long,
            1 => chain.xresources = Some(long),
            2 => chain.xdefaults = Some(long),
            3 => chain.xenvironment = Some(long),
            _ => chain.host = Some(long),
        }
    }
    (source, query)
}

/// A value of more than 255 bytes, which takes both bytes of a length.
fn long_value(draw: &mut Draw) -> (Source, Query) {
    let query = texts::query(draw);
    let value = vec![b'z'; draw.between(250, 2_000)];
    let text = [texts::aligned_key(draw, &query, 2), b": ".to_vec(), value, b"\nb: 1".to_vec()].concat();
    (Source::plain(&text), query)
}

fn swapped(query: &Query) -> Query {
    Query::new(&query.class, &query.name)
}

/// A limit, or up to two less or more.
fn near(draw: &mut Draw, limit: usize) -> usize {
    limit - 2 + draw.below(5)
}

/// A query near a limit in its name or in its class.
fn limit_query(draw: &mut Draw) -> Query {
    let long = match draw.below(4) {
        0 => vec![b'a'; near(draw, QUERY_BYTES)],
        1 => vec![b"a".as_slice(); near(draw, QUERY_PARTS)].join(&b'.'),
        2 => b"a.".repeat(near(draw, QUERY_PARTS)),
        _ => "a.\u{e9}".as_bytes().to_vec(),
    };
    let query = Query::new(&long, &texts::query(draw).class);
    if draw.one_in(2) {
        swapped(&query)
    } else {
        query
    }
}

/// Files to put into an archive one after the other, some of which it must refuse.
pub fn files(draw: &mut Draw) -> Vec<(String, Vec<u8>)> {
    let count = if draw.one_in(6) { near(draw, ARCHIVE_FILES) } else { draw.below(5) };
    let mut files: Vec<(String, Vec<u8>)> = (0..count).map(|n| (file_name(draw, n), texts::word(draw))).collect();
    if draw.one_in(3) {
        let taken: usize = files.iter().map(|(name, body)| 4 + name.len() + body.len()).sum();
        let room = ARCHIVE_BYTES - 2 - taken;
        files.push(("q".to_string(), vec![b'\n'; near(draw, room - 5)]));
        files.push(("r".to_string(), Vec::new()));
    }
    files
}

fn file_name(draw: &mut Draw, number: usize) -> String {
    match draw.below(30) {
        0 => "p".repeat(near(draw, FILE_NAME_BYTES)),
        1 => String::new(),
        2 => ["a", "/", ".", "..", "\u{e9}"][draw.below(5)].repeat(draw.between(1, 3)),
        3 => format!("{}/p", draw.pick(&["a", ".", "..", "...", "a b", ""])),
        4 => char::from(draw.byte()).to_string(),
        _ => format!("f{number}"),
    }
}
