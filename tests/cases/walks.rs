//! Histories of an image, document 02 (v): walks, steps from any state, and texts that are added between them.

use crate::draw::Draw;
use crate::images::{self, Entry, Image};
use crate::readings::{on_each_word, Extent, Seen};
use crate::words::{keys, queries};
use crate::{crowded, realistic, texts};
use model::limits::{BODIES_BYTES, ENTRIES, KEY_PARTS, QUERY_BYTES, QUERY_PARTS, ROW_WORDS, TEXT_BYTES};
use records::{Query, Source};

/// What is done to an image.
#[derive(Clone, Debug, PartialEq, Eq)]
pub enum Turn {
    /// A walk begins, in place of the one before.
    Start(Query),
    /// A step of that walk, if its start was not refused.
    Step,
    /// A step of no walk.
    From(Query, State),
    Add(Vec<u8>),
}

/// Any next number and count.
#[derive(Clone, Copy, Debug, PartialEq, Eq)]
pub struct State {
    pub next: u16,
    pub count: u16,
}

/// Called with each image of a family, and with what is done to it, one turn after another.
pub type See<'a> = &'a mut dyn FnMut(&Image, &[Turn]) -> Seen;

pub type Family = fn(Extent, See) -> Seen;

pub const FAMILIES: [(&str, Family); 15] = [
    ("states", every_state),
    ("words", every_word),
    ("histories", every_history),
    ("keys", every_key),
    ("left-over", left_over),
    ("texts", every_text),
    ("values", every_value),
    ("added-keys", every_added_key),
    ("include-lines", every_include_line),
    ("limits", at_the_limits),
    ("random", random),
    ("wide", wide),
    ("realistic", like_real_files),
    ("near-limits", near_the_limits),
    ("damaged", damaged),
];

pub fn family(name: &str) -> Option<Family> {
    FAMILIES.iter().find(|(of, _)| *of == name).map(|(_, family)| *family)
}

fn name(name: &[u8]) -> Query {
    Query::new(name, b"")
}

fn keyed(keys: &[&[u8]]) -> Image {
    let entries: Vec<Entry> = keys.iter().zip(0..).map(|(key, number)| (key.to_vec(), vec![b'0' + number as u8])).collect();
    Image::of(&entries)
}

/// A walk to its end, and once more.
pub fn whole_walk(query: &Query, image: &Image) -> Vec<Turn> {
    let count = usize::from(image.contents[0]).min(ENTRIES);
    let steps = std::iter::repeat_n(Turn::Step, count + 2);
    std::iter::once(Turn::Start(query.clone())).chain(steps).collect()
}

/// Numbers about an image of a few entries, and those that no image has.
const NUMBERS: [u16; 11] = [0, 1, 2, 3, 4, 5, 6, 511, 512, 32_768, u16::MAX];

/// All images of up to four entries that align or not, with every next number and count.
fn every_state(_: Extent, see: See) -> Seen {
    const KEYS: [&[u8]; 3] = [b".a", b"*a", b".b"];
    let queries = [name(b"a"), Query::new(b"", b"b"), name(b""), name(b".a")];
    let states = NUMBERS.iter().flat_map(|next| NUMBERS.iter().map(|count| State { next: *next, count: *count }));
    let turns: Vec<Turn> = states.flat_map(|state| queries.iter().map(move |query| Turn::From(query.clone(), state))).collect();
    on_each_word(&[0, 1, 2], 4, &mut |word| {
        let image = keyed(&word.iter().map(|key| KEYS[usize::from(*key)]).collect::<Vec<_>>());
        see(&image, &turns)
    })
}

/// Every next number, and every count, in an image of three entries.
fn every_word(_: Extent, see: See) -> Seen {
    let image = keyed(&[b".a", b".b", b"*a"]);
    let from = |next, count| Turn::From(name(b"a"), State { next, count });
    for word in 0..=u16::MAX {
        see(&image, &[from(word, 3), from(word, u16::MAX), from(0, word), from(1, word)])?;
    }
    Ok(())
}

/// All lists of up to six turns: a walk begins, goes on, and lines are added that align, that do not, or that are refused.
fn every_history(_: Extent, see: See) -> Seen {
    let turns = [
        Turn::Start(name(b"a")),
        Turn::Step,
        Turn::Add(b"*a:x".to_vec()),
        Turn::Add(b"b:\n".to_vec()),
        Turn::Add(b"a:\na:".to_vec()),
    ];
    let images = [keyed(&[]), keyed(&[b".a"]), keyed(&[b"*a", b".b", b".a"])];
    on_each_word(&[0, 1, 2, 3, 4], 6, &mut |word| {
        let turns: Vec<Turn> = word.iter().map(|turn| turns[usize::from(*turn)].clone()).collect();
        images.iter().try_for_each(|image| see(image, &turns))
    })
}

/// Every key of up to three parts, many to an image, with every query of up to three.
fn every_key(_: Extent, see: See) -> Seen {
    let all: Vec<Entry> = keys(3).into_iter().map(|key| (key, Vec::new())).collect();
    let names = queries(b"ab", 3);
    for entries in all.chunks(60) {
        let image = Image::of(entries);
        for query in names.iter().flat_map(|name| names.iter().map(|class| Query::new(name, class))) {
            see(&image, &whole_walk(&query, &image))?;
        }
    }
    Ok(())
}

/// Images that held more entries before: the rows and bytes of those still stand behind the others, and a step with a count that
/// was theirs must not come to them.
fn left_over(_: Extent, see: See) -> Seen {
    const KEYS: [&[u8]; 3] = [b".a", b"*a", b".b"];
    on_each_word(&[0, 1, 2], 4, &mut |word| {
        let all: Vec<&[u8]> = word.iter().map(|key| KEYS[usize::from(*key)]).collect();
        for kept in 0..all.len() {
            let mut image = keyed(&all);
            image.contents[1] = image.contents[2 + ROW_WORDS * kept];
            image.contents[0] = kept as u16;
            let from = |next| Turn::From(name(b"a"), State { next, count: all.len() as u16 });
            let mut turns: Vec<Turn> = (0..=all.len() as u16).map(from).collect();
            turns.extend([Turn::Add(b"a:added".to_vec()), from(0), from(kept as u16), from(kept as u16 + 1)]);
            see(&image, &turns)?;
        }
        Ok(())
    })
}

/// Adds a text to an image of two entries, and lists what aligns before and after it.
fn added(see: See, text: &[u8]) -> Seen {
    let image = keyed(&[b"*a", b".b"]);
    let page = |number| Turn::From(name(b"a"), State { next: number, count: 9 });
    see(&image, &[page(0), Turn::Add(text.to_vec()), page(1), page(2)])
}

/// All texts of up to four bytes, five in a longer run, that the rules of reading tell apart.
fn every_text(extent: Extent, see: See) -> Seen {
    let longest = if extent.times > 1 { 5 } else { 4 };
    on_each_word(b"a.*?:\\18n \t\n#!", longest, &mut |text| added(see, text))
}

/// All short values, alone and before another line.
fn every_value(_: Extent, see: See) -> Seen {
    on_each_word(b"\\078na \t\n", 4, &mut |value| {
        added(see, &[b"a:", value].concat())?;
        added(see, &[b"a:", value, b"b:"].concat())
    })
}

fn every_added_key(_: Extent, see: See) -> Seen {
    on_each_word(b"ab?.* ", 5, &mut |key| added(see, &[key, b":x"].concat()))
}

/// All texts of up to five of these pieces: no include finds a file.
fn every_include_line(_: Extent, see: See) -> Seen {
    const PIECES: [&[u8]; 8] = [b"#", b"include", b"\"", b"p", b" ", b"!", b"\n", b"a:1"];
    on_each_word(&[0, 1, 2, 3, 4, 5, 6, 7], 5, &mut |word| {
        let text: Vec<u8> = word.iter().flat_map(|&piece| PIECES[piece as usize]).copied().collect();
        added(see, &text)
    })
}

/// So many parts, and a colon.
fn parts(count: usize) -> Vec<u8> {
    [vec![b"a".as_slice(); count].join(&b'.'), b":".to_vec()].concat()
}

/// An image with room for so many entries and bytes.
pub fn with_room(entries: usize, bytes: usize) -> Image {
    let count = ENTRIES - entries;
    let mut all = vec![(b".a".to_vec(), Vec::new()); count];
    let used = 2 * count;
    if let Some(last) = all.last_mut() {
        last.1 = vec![b'z'; BODIES_BYTES - bytes - used];
    }
    Image::of(&all)
}

/// An image, a text, and the number of the added entry or of the refusal.
pub struct AtLimit {
    pub label: &'static str,
    pub image: Image,
    pub text: Vec<u8>,
    pub expected: Result<usize, u8>,
}

/// Additions at each limit, and the order of what refuses them: 8, 2, 12, 5, 6, 7.
pub fn at_limits() -> Vec<AtLimit> {
    let at = |label, image: &Image, text: &[u8], expected| AtLimit { label, image: image.clone(), text: text.to_vec(), expected };
    let empty = Image::of(&[]);
    let mut none = Image::of(&[]);
    none.contents[0] = ENTRIES as u16 + 1;
    let long = vec![b'\n'; TEXT_BYTES + 1];
    let padded = |length: usize, line: &[u8]| [line, &vec![b'\n'; length - line.len()]].concat();
    let (wide, widest) = (parts(KEY_PARTS + 1), parts(KEY_PARTS));
    let filling = |bytes: usize| [b"a:".as_slice(), &vec![b'z'; bytes - 2]].concat();
    let (no_entry, no_byte) = (with_room(0, 100), with_room(100, 1));
    vec![
        at("no image, and a long text", &none, &long, Err(8)),
        at("no image, and no entry", &none, b"", Err(8)),
        at("a text of 32,768 bytes", &empty, &padded(TEXT_BYTES, b"a:1"), Ok(0)),
        at("a text of 32,769 bytes", &empty, &padded(TEXT_BYTES + 1, b"a:1"), Err(2)),
        at("a long text of no entry", &empty, &long, Err(2)),
        at("a long text of two entries", &no_entry, &padded(TEXT_BYTES + 1, b"a:\nb:"), Err(2)),
        at("no entry", &empty, b"", Err(12)),
        at("no entry among lines", &empty, b"! a:b\n#include \"a\"\na.?:\n a:1", Err(12)),
        at("two entries", &empty, b"a:\nb:", Err(12)),
        at("513 entries", &empty, &b"a:\n".repeat(ENTRIES + 1), Err(12)),
        at("17 parts before another entry", &empty, &[&wide[..], b"\nb:"].concat(), Err(12)),
        at("17 parts after another entry", &empty, &[b"b:\n", &wide[..]].concat(), Err(12)),
        at("two entries that do not fit", &no_byte, b"a:\nb:", Err(12)),
        at("no entry where none fits", &no_entry, b"!", Err(12)),
        at("17 parts", &empty, &wide, Err(5)),
        at("16 parts", &empty, &widest, Ok(0)),
        at("17 parts where no entry fits", &no_entry, &wide, Err(5)),
        at("17 parts where no byte fits", &no_byte, &wide, Err(5)),
        at("entry 512", &with_room(1, 100), b"a:", Ok(ENTRIES - 1)),
        at("entry 513", &no_entry, b"a:", Err(6)),
        at("entry 513, and no room for its bytes", &with_room(0, 0), b"a:", Err(6)),
        at("the last byte", &with_room(9, 3), b"a:z", Ok(ENTRIES - 9)),
        at("a byte more", &with_room(9, 3), b"a:zz", Err(7)),
        at("no room for a key", &no_byte, b"a:", Err(7)),
        at("the last entry and the last byte", &with_room(1, 2), b"a:", Ok(ENTRIES - 1)),
        at("all bytes", &empty, &filling(BODIES_BYTES), Ok(0)),
        at("all bytes behind an entry", &keyed(&[b".a"]), &filling(BODIES_BYTES - 3), Ok(1)),
        at("one byte more behind an entry", &keyed(&[b".a"]), &filling(BODIES_BYTES - 2), Err(7)),
        at("a key that fills the bodies", &empty, &[vec![b'k'; BODIES_BYTES - 1], b":".to_vec()].concat(), Ok(0)),
        at("an escape that makes room", &with_room(9, 3), b"a:\\101", Ok(ENTRIES - 9)),
        at("an escape that does not", &with_room(9, 3), b"a:\\18", Err(7)),
        at("one entry among others", &empty, b"! c\n\n#include \"p\"\nno resource\n*b : y\\nz\n#include \"./p\"\na.?:1\n", Ok(0)),
    ]
}

fn at_the_limits(_: Extent, see: See) -> Seen {
    for AtLimit { image, text, .. } in &at_limits() {
        let count = image.contents[0];
        let last = |next| Turn::From(name(b"a"), State { next, count: u16::MAX });
        see(image, &[last(0), Turn::Add(text.clone()), last(count), last(count.saturating_sub(1))])?;
    }
    let full = with_room(0, 100);
    see(&full, &whole_walk(&name(b"a"), &full))?;
    let long = [name(&[b'a'; QUERY_BYTES]), name(&[b'a'; QUERY_BYTES + 1]), Query::new(b"a", &[b'a'; QUERY_BYTES + 1])];
    let most = parts(QUERY_PARTS);
    let more = parts(QUERY_PARTS + 1);
    let wide = [name(&most[..most.len() - 1]), name(&more[..more.len() - 1]), Query::new(b".a", &more[..more.len() - 1])];
    let few = keyed(&[b".a", b"*a", b".b"]);
    long.iter().chain(&wide).try_for_each(|query| {
        let from = Turn::From(query.clone(), State { next: 1, count: 3 });
        see(&few, &[&whole_walk(query, &few)[..], &[from]].concat())
    })
}

/// A text to add, of which most make one entry.
fn addition(draw: &mut Draw, query: &Query) -> Vec<u8> {
    match draw.below(8) {
        0 => texts::text(draw, 4, query),
        1 => {
            let parts = draw.between(1, KEY_PARTS + 1);
            [texts::key(draw, parts), b":x".to_vec()].concat()
        }
        2 => [b"! a comment\n#include \"p\"\n".to_vec(), texts::aligned_key(draw, query, 2), b": \\101\n".to_vec()].concat(),
        _ => [texts::aligned_key(draw, query, 3), b":".to_vec(), vec![b'v'; draw.below(9)]].concat(),
    }
}

fn state(draw: &mut Draw) -> State {
    let mut number = || if draw.one_in(4) { draw.next() as u16 } else { draw.below(9) as u16 };
    State { next: number(), count: number() }
}

/// Turns of every kind, in any order.
fn turns(draw: &mut Draw, most: usize, query: &Query) -> Vec<Turn> {
    let mut turns = vec![Turn::Start(query.clone())];
    for _ in 0..draw.below(most + 1) {
        turns.push(match draw.below(12) {
            0 => Turn::Start(if draw.one_in(3) { texts::query(draw) } else { query.clone() }),
            1 => Turn::From(query.clone(), state(draw)),
            2 => Turn::From(texts::query(draw), state(draw)),
            3..=6 => Turn::Add(addition(draw, query)),
            _ => Turn::Step,
        });
    }
    turns
}

fn random(extent: Extent, see: See) -> Seen {
    extent.draw("walks", 20_000, |draw| {
        let query = texts::query(draw);
        let Some(image) = Image::read(&Source::plain(&texts::text(draw, 8, &query))) else { return Ok(()) };
        see(&image, &turns(draw, 14, &query))
    })
}

/// Queries of up to 33 parts, and keys that align with them by skipping much.
fn wide(extent: Extent, see: See) -> Seen {
    extent.draw("wide walks", 500, |draw| {
        let count = draw.between(6, QUERY_PARTS + 1);
        let letters: &[u8] = if draw.one_in(4) { b"ab" } else { b"abcdefghijklmnopqrstuvwxyz" };
        let text = |draw: &mut Draw| (0..count).map(|_| vec![draw.pick_byte(letters)]).collect::<Vec<_>>().join(&b'.');
        let query = Query { name: text(draw), class: text(draw) };
        let lines: Vec<Vec<u8>> = (0..6).map(|_| [texts::aligned_key(draw, &query, 6), b":".to_vec()].concat()).collect();
        let Some(image) = Image::read(&Source::plain(&lines.join(&b'\n'))) else { return Ok(()) };
        see(&image, &turns(draw, 14, &query))
    })
}

fn like_real_files(extent: Extent, see: See) -> Seen {
    extent.draw("realistic walks", 1_000, |draw| {
        let Some(image) = Image::read(&realistic::source(draw, 60)) else { return Ok(()) };
        let query = realistic::query(draw);
        see(&image, &whole_walk(&query, &image))?;
        see(&image, &turns(draw, 20, &query))
    })
}

/// Images of many entries and nearly full stores, with additions until no more fits.
fn near_the_limits(extent: Extent, see: See) -> Seen {
    extent.draw("walks near the limits", 60, |draw| {
        let image = match draw.below(3) {
            0 => Image::read(&crowded::source(draw)),
            1 => Some(images::full(draw)),
            _ => {
                let (entries, bytes) = (draw.below(6), draw.below(20));
                Some(with_room(entries, bytes))
            }
        };
        let Some(image) = image else { return Ok(()) };
        let query = if draw.one_in(2) { name(b"a") } else { texts::query(draw) };
        see(&image, &turns(draw, 30, &query))?;
        let lines: Vec<Turn> = (0..8).map(|_| Turn::Add(addition(draw, &query))).collect();
        see(&image, &lines)
    })
}

/// Images with a word or a byte of a key changed, of which most are none.
fn damaged(extent: Extent, see: See) -> Seen {
    let images = images::family("damaged").ok_or("no such family")?;
    let draw = &mut Draw::new(extent.seed, "walks in damaged images");
    images(extent, &mut |image| {
        let query = texts::query(draw);
        see(image, &turns(draw, 4, &query))
    })
}
