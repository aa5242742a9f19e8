//! Families of lookups: short keys with short queries, every short query, values around every bound of
//! a string, a boolean and a number, random ones, and those at the limits.

use crate::crowded;
use crate::damage::{damage_text, damaged};
use crate::draw::Draw;
use crate::limits::edges;
use crate::named::{named, small};
use crate::readings::{on_each_word, Extent, Seen};
use crate::texts::aligned_key;
use crate::words::{each_word, keys, queries, words};
use crate::{archives, realistic, texts};
use model::archive::{judge, lay_out};
use records::{Query, Source};

/// Called with each source of a family, and what to look up in it.
pub type Ask<'a> = &'a mut dyn FnMut(&Source, &[Query]) -> Seen;

pub type Family = fn(Extent, Ask) -> Seen;

pub const FAMILIES: [(&str, Family); 16] = [
    ("one-key", in_one),
    ("two-keys", in_two),
    ("query-bytes", every_pair_of_bytes),
    ("query-words", every_short_query),
    ("strings", every_string),
    ("numbers", every_number),
    ("booleans", every_boolean),
    ("limits", at_the_limits),
    ("near-limits", near_the_limits),
    ("random", random),
    ("wide", wide),
    ("window-bounds", around_the_window),
    ("archives", random_archives),
    ("struck-off", struck_off),
    ("realistic", like_real_files),
    ("damaged", damaged_copies),
];

fn line(value: &[u8]) -> Source {
    Source::plain(&[b"a:", value].concat())
}

/// Every key of up to four parts, alone, with every query of up to four.
fn in_one(_: Extent, ask: Ask) -> Seen {
    let names = queries(b"ab", 4);
    let all: Vec<Query> = names.iter().flat_map(|name| names.iter().map(|class| Query::new(name, class))).collect();
    keys(4).iter().try_for_each(|key| ask(&Source::plain(&[key, b":1".as_slice()].concat()), &all))
}

/// Every two keys of up to three parts, with every name of up to three that does not begin with `b`,
/// and a class that is empty or as long. Names that begin with `b` are the same with the letters
/// changed about.
fn in_two(_: Extent, ask: Ask) -> Seen {
    let names = queries(b"ab", 3);
    let fits = |name: &[u8], class: &[u8]| class.is_empty() || class.len() == name.len();
    let all: Vec<Query> = names
        .iter()
        .filter(|name| !name.starts_with(b"b"))
        .flat_map(|name| names.iter().filter(|class| fits(name, class)).map(|class| Query::new(name, class)))
        .collect();
    let keys = keys(3);
    keys.iter().try_for_each(|first| {
        keys.iter().try_for_each(|second| ask(&Source::plain(&[first, b":1\n".as_slice(), second, b":on"].concat()), &all))
    })
}

/// All pairs of bytes at the front of a query, in it and at its end, as a name and as a class.
fn every_pair_of_bytes(_: Extent, ask: Ask) -> Seen {
    let source = Source::plain(b"a:1\n*b:2\n?c:3\naz:4\na.-:5\n*_:6\n*9:7\n*Z:8");
    let places: [(&[u8], &[u8]); 3] = [(b"", b"b"), (b"a", b"b"), (b"a", b"")];
    let mut all = Vec::new();
    let pairs = words(&(0..=255).collect::<Vec<u8>>(), 2);
    for (before, after) in places {
        for pair in &pairs {
            let query = [before, pair, after].concat();
            all.push(Query::new(&query, b""));
            all.push(Query::new(b"q", &query));
        }
    }
    ask(&source, &all)
}

/// All short queries over the bytes that the rules tell apart, as a name and as a class.
fn every_short_query(_: Extent, ask: Ask) -> Seen {
    let sources = [Source::plain(b"*a:1\na.b:2\n?.b:3\n*b*a:4"), Source::plain(b"")];
    let mut all = Vec::new();
    each_word(b"ab.*?:", 6, &mut |query| {
        all.push(Query::new(query, b""));
        all.push(Query::new(b"a.b", query));
    });
    sources.iter().try_for_each(|source| ask(source, &all))
}

/// Values around every bound of well-formed UTF-8.
fn every_string(_: Extent, ask: Ask) -> Seen {
    const BYTES: [u8; 18] =
        [0x41, 0x7F, 0x80, 0x8F, 0x90, 0x9F, 0xA0, 0xBF, 0xC1, 0xC2, 0xDF, 0xE0, 0xE1, 0xED, 0xEF, 0xF0, 0xF4, 0xF5];
    let all = [Query::new(b"a", b"")];
    on_each_word(&BYTES, 4, &mut |value| ask(&line(value), &all))
}

fn every_number(extent: Extent, ask: Ask) -> Seen {
    let all = [Query::new(b"a", b"")];
    on_each_word(b"+-019x ", 5, &mut |value| ask(&line(value), &all))?;
    extent.draw("numbers", 20_000, |draw| ask(&line(&texts::word(draw)), &all))
}

/// The six words in every case of letters, and with every letter replaced by each letter that has
/// a lower case of its own in Unicode.
fn every_boolean(_: Extent, ask: Ask) -> Seen {
    const WORDS: [&str; 6] = ["true", "on", "yes", "false", "off", "no"];
    let all = [Query::new(b"a", b"")];
    let cased: Vec<char> = ('\0'..=char::MAX).filter(|c| c.is_ascii_graphic() || !c.to_lowercase().eq([*c])).collect();
    for word in WORDS {
        for upper in 0..1u32 << word.len() {
            let raised = |(at, b): (usize, u8)| if upper >> at & 1 == 1 { b.to_ascii_uppercase() } else { b };
            ask(&line(&word.bytes().enumerate().map(raised).collect::<Vec<u8>>()), &all)?;
        }
        for at in 0..word.len() {
            for c in &cased {
                ask(&line(format!("{}{c}{}", &word[..at], &word[at + 1..]).as_bytes()), &all)?;
            }
        }
    }
    Ok(())
}

/// The cases at the limits and those chosen by hand.
fn at_the_limits(_: Extent, ask: Ask) -> Seen {
    let usual = [Query::new(b"a", b""), Query::new(b"b", b"a")];
    edges().iter().try_for_each(|edge| ask(&edge.source, &[&usual[..], &edge.queries].concat()))?;
    small().iter().chain(&named()).try_for_each(|case| ask(&case.source, std::slice::from_ref(&case.query)))
}

/// Images of up to 512 entries and full stores, refused readings among them.
fn near_the_limits(extent: Extent, ask: Ask) -> Seen {
    extent.draw("lookups near the limits", 500, |draw| {
        let source = crowded::source(draw);
        let query = texts::query(draw);
        ask(&source, &and_others(draw, query))
    })
}

/// The query that a source was drawn for, and others.
fn and_others(draw: &mut Draw, query: Query) -> Vec<Query> {
    let class = query.class.clone();
    let mut queries = vec![query, texts::query(draw), texts::query(draw)];
    let name = queries[1].name.clone();
    queries.push(Query { name, class });
    queries
}

fn random(extent: Extent, ask: Ask) -> Seen {
    extent.draw("lookups", 60_000, |draw| {
        let query = texts::query(draw);
        let source = Source::plain(&texts::text(draw, 8, &query));
        ask(&source, &and_others(draw, query))
    })
}

/// Queries of up to 33 parts, and keys that align with them by skipping much.
fn wide(extent: Extent, ask: Ask) -> Seen {
    extent.draw("wide lookups", 2_000, |draw| {
        let parts = draw.between(6, 33);
        let letters: &[u8] = if draw.one_in(4) { b"ab" } else { b"abcdefghijklmnopqrstuvwxyz" };
        let text = |draw: &mut Draw| (0..parts).map(|_| vec![draw.pick_byte(letters)]).collect::<Vec<_>>().join(&b'.');
        let query = Query { name: text(draw), class: text(draw) };
        let skips = draw.between(4, 7);
        let lines: Vec<Vec<u8>> =
            (0..6).map(|n| [aligned_key(draw, &query, skips), format!(":{n}").into_bytes()].concat()).collect();
        ask(&Source::plain(&lines.join(&b'\n')), &[query])
    })
}

/// Queries of 6 to 10 parts, with dots behind half of them up to some 128 bytes, and keys that align with them.
fn around_the_window(extent: Extent, ask: Ask) -> Seen {
    extent.draw("lookups around the window's bounds", 4_000, |draw| {
        let text = |draw: &mut Draw| {
            let parts: Vec<Vec<u8>> = (0..draw.between(6, 10)).map(|_| vec![draw.pick_byte(b"abc")]).collect();
            let mut text = parts.join(&b'.');
            if draw.one_in(2) {
                text.resize(draw.between(124, 131), b'.');
            }
            text
        };
        let query = Query { name: text(draw), class: text(draw) };
        let skips = draw.between(1, 7);
        let lines: Vec<Vec<u8>> =
            (0..6).map(|n| [aligned_key(draw, &query, skips), format!(":{n}").into_bytes()].concat()).collect();
        ask(&Source::plain(&lines.join(&b'\n')), &[query])
    })
}

fn random_archives(extent: Extent, ask: Ask) -> Seen {
    extent.draw("lookups with archives", 8_000, |draw| {
        let (source, query) = archives::source(draw);
        ask(&source, &and_others(draw, query))
    })
}

/// Archives with each of their files struck off.
fn struck_off(extent: Extent, ask: Ask) -> Seen {
    extent.draw("lookups with a file struck off", 2_000, |draw| {
        let (source, query) = archives::source(draw);
        let queries = and_others(draw, query);
        (0..judge(&source.archive).expect("a good archive").files.len())
            .try_for_each(|which| ask(&source.struck(which), &queries))
    })
}

fn like_real_files(extent: Extent, ask: Ask) -> Seen {
    extent.draw("realistic lookups", 2_000, |draw| {
        let source = realistic::source(draw, 60);
        let queries: Vec<Query> = (0..8).map(|_| realistic::query(draw)).collect();
        ask(&source, &queries)
    })
}

/// Good sources with a few bytes of the main text, of a file or of a query damaged.
fn damaged_copies(extent: Extent, ask: Ask) -> Seen {
    extent.draw("damaged lookups", 16_000, |draw| {
        let (mut source, mut query) = match draw.below(4) {
            0 => archives::source(draw),
            1 => (realistic::source(draw, 8), realistic::query(draw)),
            _ => {
                let query = texts::query(draw);
                (Source::plain(&texts::text(draw, 4, &query)), query)
            }
        };
        let mut files = judge(&source.archive).expect("a good archive").files;
        match draw.below(8) {
            0 | 1 => query.name = damaged(draw, &query.name),
            2 | 3 => query.class = damaged(draw, &query.class),
            4 | 5 if !files.is_empty() => {
                let which = draw.below(files.len());
                files[which].body = damaged(draw, &files[which].body);
                source.archive = lay_out(&files);
            }
            _ => damage_text(draw, &mut source),
        }
        ask(&source, &and_others(draw, query))
    })
}
