//! Tests of the comparing calls by name: what they refuse, and what they leave then.

use crate::both::{Shape, SHAPES};
use crate::comparing::{Calls, Comparing, Room, NO_FILE};
use cases::dotted;
use cases::limits::{edges, Edge};
use cases::named_chains;
use model::archive::judge;
use model::limits::{BODIES_BYTES, CONTENTS_WORDS, DEFAULT_DEPTH, GREATEST_DEPTH, TEXT_BYTES};
use model::startup::StartUp;
use records::{archive_of, Query, Source};

/// What a test asks of: main texts, or start-ups.
pub struct Asked {
    source: Source,
    /// Refused by 2, and by 3 if it were not.
    long: Source,
    edges: Vec<Edge>,
}

type Test = fn(Calls, &Asked) -> Result<String, String>;

const MAIN_TEXTS: [(&str, Test); 4] = [
    ("comparing call in short buffers", short_buffers),
    ("comparing call at the limits", limits),
    ("comparing call and its queries", queries),
    ("comparing call at depths", depths),
];

const START_UPS: [(&str, Test); 4] = [
    ("comparing call of start-ups by name", start_ups_by_name),
    ("comparing call of a start-up and its queries", queries),
    ("comparing call of a start-up in short buffers", short_buffers),
    ("comparing call of a start-up at the limits", limits),
];

pub fn names() -> impl Iterator<Item = &'static str> {
    MAIN_TEXTS.iter().chain(&START_UPS).map(|(name, _)| *name)
}

/// Runs a test on the calls, or none if there is no such test.
pub fn test(name: &str, calls: Calls) -> Option<Result<String, String>> {
    let find = |tests: &[(&str, Test)]| tests.iter().find(|(of, _)| *of == name).map(|(_, test)| *test);
    if let Some(test) = find(&MAIN_TEXTS) {
        return Some(test(calls, &main_texts()));
    }
    find(&START_UPS).map(|test| test(calls, &start_ups()))
}

const ROOM: Room = Room { with_it: SHAPES[0], without: SHAPES[1], more: 0 };

/// A file that wins, and one that is left.
const FILES: [(&[u8], &[u8]); 2] = [(b"p", b"a:2\n#include \"q\""), (b"q", b"b:3")];

fn main_texts() -> Asked {
    Asked {
        source: Source::with(b"a:1\n#include \"p\"", &FILES),
        long: Source::text(vec![b'\n'; TEXT_BYTES + 1], vec![9, 9, 9]),
        edges: edges().into_iter().chain(dotted::edges()).collect(),
    }
}

/// The same lines in two texts.
fn start_ups() -> Asked {
    let start_up = StartUp { xresources: Some(b"a:1".to_vec()), host: Some(b"#include \"p\"".to_vec()), ..StartUp::default() };
    let long = StartUp { host: Some(vec![b'\n'; TEXT_BYTES + 1]), ..start_up.clone() };
    Asked {
        source: Source::chain(start_up, archive_of(&FILES)),
        long: Source::chain(long, vec![9, 9, 9]),
        edges: named_chains::at_limits(),
    }
}

fn gives(comparing: &mut Comparing, source: &Source, file: usize, query: &Query, room: Room, word: u64) -> Result<(), String> {
    match comparing.compare(source, file, query, room)?.0 {
        got if got == word => Ok(()),
        got => Err(format!("file {file}, with buffers lent as {room:?}: {got}, and not {word}")),
    }
}

/// Each of the five buffers too short, which is refused by 1 before a long text or a bad archive is.
fn short_buffers(calls: Calls, asked: &Asked) -> Result<String, String> {
    let mut comparing = Comparing::new(calls);
    let query = Query::new(b"a", b"");
    let mut count = 0;
    for less in [1, 2, 100, CONTENTS_WORDS] {
        let words = Shape { words: CONTENTS_WORDS - less, ..SHAPES[0] };
        let bytes = Shape { bytes: BODIES_BYTES - less, ..SHAPES[1] };
        let mut rooms: Vec<Room> = [words, bytes].map(|with_it| Room { with_it, ..ROOM }).to_vec();
        rooms.extend([words, bytes].map(|without| Room { without, ..ROOM }));
        rooms.push(Room { more: -(less as isize).min(3), ..ROOM });
        for room in rooms {
            for source in [&asked.source, &asked.long] {
                gives(&mut comparing, source, 0, &query, room, 1)?;
                count += 1;
            }
        }
    }
    Ok(format!("{count} calls refused by 1"))
}

/// The cases at the limits, each with every file, and with a number that is no file's.
fn limits(calls: Calls, asked: &Asked) -> Result<String, String> {
    let mut comparing = Comparing::new(calls);
    let query = Query::new(b"a", b"");
    let (mut answered, mut refused) = (0, 0);
    for edge in &asked.edges {
        let files = judge(&edge.source.archive).map_or(0, |archive| archive.files.len());
        for file in (0..files).chain([files, files + 1, 64, 65_535, 65_536, usize::MAX]) {
            let word = match edge.expected {
                Err(number) => number.into(),
                Ok(_) if file >= files => NO_FILE,
                Ok(_) => 0,
            };
            gives(&mut comparing, &edge.source, file, &query, ROOM, word).map_err(|why| format!("{}: {why}", edge.label))?;
            *(if word == 0 { &mut answered } else { &mut refused }) += 1;
        }
    }
    Ok(format!("{answered} calls answered, {refused} not"))
}

/// Queries past their limits refuse the call; malformed ones find nothing.
fn queries(calls: Calls, asked: &Asked) -> Result<String, String> {
    let mut comparing = Comparing::new(calls);
    let dotted = |parts: usize| vec![b"a".to_vec(); parts].join(&b'.');
    let cases: [(Query, u64); 9] = [
        (Query::new(b"a", b""), 0),
        (Query::new(b"", b""), 0),
        (Query::new(&dotted(32), b"b"), 0),
        (Query::new(&dotted(33), b""), 10),
        (Query::new(b"a", &dotted(33)), 10),
        (Query::new(b".a", &dotted(33)), 0),
        (Query::new(&[b'a'; 1024], b""), 0),
        (Query::new(&[b'a'; 1025], b""), 9),
        (Query::new(b".a", &[b'.'; 1025]), 9),
    ];
    let mut count = 0;
    for (query, word) in &cases {
        for file in 0..2 {
            gives(&mut comparing, &asked.source, file, query, ROOM, *word)?;
            count += 1;
        }
        gives(&mut comparing, &asked.source, 2, query, ROOM, NO_FILE)?;
        count += 1;
    }
    Ok(format!("{count} calls"))
}

/// Depths within the limit, one of them where none is given, and over it, which is refused by 15: after 1, 2 and 3, and before a number that
/// is no file's.
fn depths(calls: Calls, asked: &Asked) -> Result<String, String> {
    let mut comparing = Comparing::new(calls);
    let query = Query::new(b"a", b"");
    let endless = Source::with(b"#include \"p\"", &[(b"p", b"#include \"p\"\na:1")]);
    let bad = Source::text(b"a:1".to_vec(), vec![]);
    let short = Room { without: Shape { words: CONTENTS_WORDS - 1, ..SHAPES[1] }, ..ROOM };
    let mut count = 0;
    let mut expect = |source: Source, file, room, word| {
        count += 1;
        gives(&mut comparing, &source, file, &query, room, word).map_err(|why| format!("at depth {}: {why}", source.depth))
    };
    for depth in [0, 1, 2, 19, DEFAULT_DEPTH, 21, 99, GREATEST_DEPTH] {
        expect(endless.at(depth), 0, ROOM, 0)?;
        expect(endless.at(depth), 1, ROOM, NO_FILE)?;
        expect(asked.source.at(depth), 1, ROOM, 0)?;
    }
    for depth in [101, 127, 256, 65_536 + 20, (1 << 32) + 5, 1 << 63, u64::MAX] {
        for file in [0, 1, 2, usize::MAX] {
            expect(asked.source.at(depth), file, ROOM, 15)?;
        }
        expect(bad.at(depth), 0, ROOM, 3)?;
        expect(asked.long.at(depth), 0, ROOM, 2)?;
        expect(asked.source.at(depth), 0, short, 1)?;
    }
    Ok(format!("{count} calls"))
}

/// Start-ups of every kind, each with every file, and with a number that is no file's.
fn start_ups_by_name(calls: Calls, _: &Asked) -> Result<String, String> {
    let mut comparing = Comparing::new(calls);
    let query = Query::new(b"q", b"");
    let mut count = 0;
    for named in named_chains::named() {
        let files = judge(&named.source.archive).map_or(0, |archive| archive.files.len());
        for file in 0..=files {
            let word = if file < files { 0 } else { NO_FILE };
            gives(&mut comparing, &named.source, file, &query, ROOM, word).map_err(|why| format!("{}: {why}", named.label))?;
            count += 1;
        }
    }
    Ok(format!("{count} calls"))
}

/// What a faulty call is held to.
pub fn whole_comparison(calls: Calls) -> Result<(), String> {
    MAIN_TEXTS.iter().try_for_each(|(_, test)| test(calls, &main_texts()).map(drop))
}

pub fn comparison_of_start_ups(calls: Calls) -> Result<(), String> {
    START_UPS.iter().try_for_each(|(_, test)| test(calls, &start_ups()).map(drop))
}
