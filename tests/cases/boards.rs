//! Histories of a board, document 02 (ix): queries that are watched, packs that arrive and leave, refused calls among them, and boards whose
//! words or bytes were changed by somebody else.

use crate::draw::Draw;
use crate::images::{Entry, Image};
use crate::readings::{on_each_word, Extent, Seen};
use crate::words::{keys, queries};
use model::board::{body_start, lengths_start, slot_start, text_start};
use model::limits::{BODIES_BYTES, CONTENTS_WORDS, ENTRIES, PACKS, QUERIES, QUERY_BYTES, QUERY_PARTS, ROW_WORDS};
use records::Query;
use std::rc::Rc;

/// What is done to a board. After each turn every query is asked for, and a report of each pack.
#[derive(Clone, Debug, PartialEq, Eq)]
pub enum Turn {
    Make,
    Watch(Query),
    Arrive(u16, Rc<Image>),
    Leave(u16),
    /// A word or a byte is written by somebody else.
    Word(usize, u16),
    Byte(usize, u8),
}

/// Called with each history of a family.
pub type See<'a> = &'a mut dyn FnMut(&[Turn]) -> Seen;

pub type Family = fn(Extent, See) -> Seen;

pub const FAMILIES: [(&str, Family); 8] = [
    ("histories", every_history),
    ("edges", at_the_edges),
    ("queries", every_query),
    ("equal-keys", equal_keys),
    ("random", random),
    ("crowded", crowded),
    ("near-limits", near_the_limits),
    ("damaged", damaged),
];

pub fn family(name: &str) -> Option<Family> {
    FAMILIES.iter().find(|(of, _)| *of == name).map(|(_, family)| *family)
}

fn watch(name: &[u8]) -> Turn {
    Turn::Watch(Query::new(name, b""))
}

fn pack(entries: &[(&[u8], &[u8])]) -> Rc<Image> {
    let entries: Vec<Entry> = entries.iter().map(|(key, value)| (key.to_vec(), value.to_vec())).collect();
    Rc::new(Image::of(&entries))
}

/// All lists of four calls, five in a longer run, of ten: three packs that come and go, two that cannot, and queries that can be watched or not.
fn every_history(extent: Extent, see: See) -> Seen {
    let no_image = Rc::new(Image { contents: vec![513; 2050], bodies: vec![0; BODIES_BYTES] });
    let calls = [
        watch(b"a.b"),
        watch(b".a"),
        watch(&[b'a'; QUERY_BYTES + 1]),
        Turn::Arrive(7, pack(&[(b".a*b", b"old"), (b"*c", b"x")])),
        Turn::Arrive(9, pack(&[(b".c", b""), (b".a.b", b"new")])),
        Turn::Arrive(2, pack(&[(b".a*b", b"old")])),
        Turn::Arrive(3, no_image),
        Turn::Leave(7),
        Turn::Leave(9),
        Turn::Leave(0),
    ];
    let letters: Vec<u8> = (0..calls.len() as u8).collect();
    let longest = if extent.times > 1 { 5 } else { 4 };
    on_each_word(&letters, longest, &mut |word| {
        let history: Vec<Turn> =
            [Turn::Make, watch(b"a.b")].into_iter().chain(word.iter().map(|which| calls[*which as usize].clone())).collect();
        see(&history)
    })
}

/// Boards that fill their rooms, or pass what an image holds, each in a history of its own.
fn at_the_edges(_: Extent, see: See) -> Seen {
    [full_rooms(), empty_value_at_the_end(), made_again(), more_than_512_entries(), images_one_short()]
        .iter()
        .try_for_each(|history| see(history))
}

/// A name or a class that fills its room, another for each query beside it.
fn longest_text(letter: u8, last: &[u8]) -> Vec<u8> {
    [vec![letter; QUERY_BYTES - last.len()], last.to_vec()].concat()
}

/// All texts of queries and all bodies of packs fill their rooms, which stand one right behind another.
fn full_rooms() -> Vec<Turn> {
    let name = |query: usize| longest_text(b'a' + query as u8 % 26, b".b");
    let class = |query: usize| longest_text(b'A' + query as u8 / 2, b".B");
    let watched = (0..QUERIES).map(|query| Turn::Watch(Query::new(&name(query), &class(query))));
    let arrivals = (1..=PACKS as u16).map(|number| {
        let value = vec![b'a' + number as u8; BODIES_BYTES - 4];
        Turn::Arrive(number, pack(&[(b".?.b", &value)]))
    });
    let key = |query: usize| [b".", &name(query)[..]].concat();
    let last = pack(&[(&key(0), b"first"), (&key(QUERIES - 1), b"last")]);
    let after = [Turn::Leave(PACKS as u16), Turn::Arrive(99, last), Turn::Leave(1)];
    [Turn::Make].into_iter().chain(watched).chain(arrivals).chain(after).collect()
}

/// A value of no bytes at place 32,768, behind the last byte of its pack: the place needs all of its 16 bits.
fn empty_value_at_the_end() -> Vec<Turn> {
    let full = pack(&[(b".z", &[b'v'; BODIES_BYTES - 4]), (b".a", b"")]);
    let arrivals = [Turn::Arrive(1, full.clone()), Turn::Arrive(2, pack(&[(b".a", b"")]))];
    let after = [Turn::Leave(2), Turn::Arrive(3, full), Turn::Leave(1)];
    [Turn::Make, watch(b"a"), watch(b"z")].into_iter().chain(arrivals).chain(after).collect()
}

/// A making in a full board leaves none of its packs and queries.
fn made_again() -> Vec<Turn> {
    let watched = (0..QUERIES).map(|_| watch(b"a"));
    let arrivals = (1..=PACKS as u16).map(|number| Turn::Arrive(number, pack(&[(b"*a", b"x")])));
    let after = [Turn::Make, watch(b"b"), Turn::Leave(1), Turn::Arrive(1, pack(&[(b".b", b"y")])), Turn::Make, Turn::Make];
    [Turn::Make].into_iter().chain(watched).chain(arrivals).chain(after).collect()
}

/// The joined entries are more than an image holds: the best is the last of 513, and one of them is the only one.
fn more_than_512_entries() -> Vec<Turn> {
    let most: Vec<Entry> = (0..ENTRIES).map(|_| (b"*a".to_vec(), b"old".to_vec())).collect();
    let arrivals = [Turn::Arrive(1, Rc::new(Image::of(&most))), Turn::Arrive(2, pack(&[(b".b", b"only"), (b".a", b"new")]))];
    let after = [Turn::Leave(2), Turn::Arrive(3, Rc::new(Image::of(&most))), Turn::Leave(1), Turn::Leave(3)];
    [Turn::Make, watch(b"a"), watch(b"b")].into_iter().chain(arrivals).chain(after).collect()
}

/// An image in buffers of which one has one element too few.
fn images_one_short() -> Vec<Turn> {
    let image = Image::of(&[(b".a".to_vec(), b"x".to_vec())]);
    let short_contents = Image { contents: image.contents[..CONTENTS_WORDS - 1].to_vec(), ..image.clone() };
    let short_bodies = Image { bodies: image.bodies[..BODIES_BYTES - 1].to_vec(), ..image.clone() };
    let arrivals = [short_contents, short_bodies, image].map(|image| Turn::Arrive(1, Rc::new(image)));
    [Turn::Make, watch(b"a")].into_iter().chain(arrivals).collect()
}

/// Every query of up to three parts beside every key of two, in two packs.
fn every_query(_: Extent, see: See) -> Seen {
    let keys = keys(2);
    let all: Vec<Entry> = keys.iter().zip(0..).map(|(key, number)| (key.clone(), vec![b'0' + number as u8 % 75])).collect();
    let (first, second) = all.split_at(all.len() / 2);
    let packs = [Rc::new(Image::of(first)), Rc::new(Image::of(second))];
    for chunk in queries(b"ab", 3).chunks(QUERIES) {
        let watched = chunk.iter().map(|name| watch(name));
        let history: Vec<Turn> = [Turn::Make].into_iter().chain(watched).collect();
        for order in [[0, 1], [1, 0]] {
            let arrive = order.map(|which| Turn::Arrive(which as u16 + 1, packs[which].clone()));
            see(&[&history[..], &arrive, &[Turn::Leave(1)]].concat())?;
        }
    }
    Ok(())
}

/// Packs with one key and values that are the same or not: of equals the later arrival wins, and a report tells where the bytes are the same.
fn equal_keys(_: Extent, see: See) -> Seen {
    on_each_word(b"xyz", 4, &mut |values| {
        let arrivals =
            values.iter().zip(1..).map(|(value, number)| Turn::Arrive(number, pack(&[(b"*a", &[*value]), (b".b", b"")])));
        let history: Vec<Turn> = [Turn::Make, watch(b"a"), watch(b"b"), watch(b"a")].into_iter().chain(arrivals).collect();
        see(&history)?;
        let again = Turn::Arrive(1, pack(&[(b"*a", b"x")]));
        see(&[&history[..], &[Turn::Leave(1), again]].concat())
    })
}

fn random_entries(draw: &mut Draw, most: usize) -> Vec<Entry> {
    let keys = keys(3);
    (0..draw.below(most + 1))
        .map(|_| {
            let value = (0..draw.below(4)).map(|_| draw.pick_byte(b"xy\n")).collect();
            (keys[draw.below(keys.len())].clone(), value)
        })
        .collect()
}

fn random_query(draw: &mut Draw) -> Query {
    let text = |draw: &mut Draw| -> Vec<u8> {
        match draw.below(12) {
            0 => b".a".to_vec(),
            1 => b"a.".repeat(QUERY_PARTS + draw.below(2)),
            2 => vec![b'a'; QUERY_BYTES + draw.below(2)],
            _ => (0..draw.below(4)).map(|_| draw.pick_byte(b"ab")).flat_map(|b| [b, b'.']).collect(),
        }
    };
    Query::new(&text(draw), &text(draw))
}

fn random_turn(draw: &mut Draw, most: usize) -> Turn {
    let number = |draw: &mut Draw| [0, 1, 2, 3, 4, 5, 6, u16::MAX][draw.below(8)];
    match draw.below(8) {
        0 | 1 => Turn::Watch(random_query(draw)),
        2..=5 => {
            let mut image = Image::of(&random_entries(draw, most));
            // What is behind an image is not kept.
            image.contents.last_mut().into_iter().for_each(|word| *word = 0xA5A5);
            if draw.one_in(8) {
                image.contents[draw.below(8)] ^= 1 << draw.below(16);
            }
            Turn::Arrive(number(draw), Rc::new(image))
        }
        _ => Turn::Leave(number(draw)),
    }
}

/// Random calls, many of which are refused.
fn random(extent: Extent, see: See) -> Seen {
    let mut draw = Draw::new(extent.seed, "boards");
    (0..300 * extent.times).try_for_each(|_| {
        let history: Vec<Turn> = std::iter::once(Turn::Make).chain((0..30).map(|_| random_turn(&mut draw, 12))).collect();
        see(&history)
    })
}

/// Boards that are full: a seventeenth pack, and a thirty-third query, with good and bad numbers and texts.
fn crowded(extent: Extent, see: See) -> Seen {
    let mut draw = Draw::new(extent.seed, "crowded boards");
    for _ in 0..2 * extent.times {
        let packs = (1..=PACKS as u16 + 1).map(|number| (number * 11, Rc::new(Image::of(&random_entries(&mut draw, 9)))));
        let arrivals: Vec<Turn> = packs.map(|(number, image)| Turn::Arrive(number, image)).collect();
        let watched: Vec<Turn> =
            (0..QUERIES + 1).map(|_| watch(draw.pick(&[b"a".as_slice(), b"a.b", b"b.a.b", b"", b".a"]))).collect();
        let late = [
            Turn::Arrive(0, pack(&[])),
            Turn::Arrive(11, pack(&[])),
            Turn::Arrive(1, Rc::new(Image { contents: vec![], bodies: vec![] })),
            watch(&[b'a'; QUERY_BYTES + 1]),
            watch(&b"a.".repeat(QUERY_PARTS + 1)),
            watch(b".a"),
        ];
        let leaving = (1..=PACKS as u16 + 1).map(|number| Turn::Leave(number * 7 % 17 * 11));
        let history = [Turn::Make].into_iter().chain(watched).chain(arrivals).chain(late).chain(leaving);
        see(&history.collect::<Vec<_>>())?;
    }
    Ok(())
}

/// Packs of 512 entries and of full bodies: the joined entries are many more than an image holds.
fn near_the_limits(extent: Extent, see: See) -> Seen {
    let mut draw = Draw::new(extent.seed, "large boards");
    for _ in 0..extent.times {
        let mut history = vec![Turn::Make, watch(b"a.b"), watch(b"b"), watch(b"c"), watch(b"a.b.a.b")];
        for number in 1..=PACKS as u16 {
            let keys = keys(3);
            let mut entries: Vec<Entry> =
                (0..ENTRIES).map(|_| (keys[draw.below(keys.len())].clone(), vec![b'0' + number as u8])).collect();
            let used: usize = entries.iter().map(|(key, value)| key.len() + value.len()).sum();
            let last = entries.len() - 1;
            entries[last] = (b"*c".to_vec(), vec![b'v'; BODIES_BYTES - used + entries[last].0.len() + 1 - 2]);
            history.push(Turn::Arrive(number, Rc::new(Image::of(&entries))));
        }
        history.extend([Turn::Leave(16), Turn::Leave(1), Turn::Arrive(1, pack(&[(b"*b", b"last")]))]);
        see(&history)?;
    }
    Ok(())
}

/// A board of three packs and two queries, with a word or a byte changed, and then each of the calls.
fn damaged(extent: Extent, see: See) -> Seen {
    let mut draw = Draw::new(extent.seed, "damaged boards");
    let good = [
        Turn::Make,
        watch(b"a.b"),
        Turn::Watch(Query::new(b"b", b"a")),
        Turn::Arrive(7, pack(&[(b".a*b", b"old"), (b"*c", b"x")])),
        Turn::Arrive(9, pack(&[(b".a.b", b"new")])),
        Turn::Arrive(2, pack(&[])),
    ];
    let after = [watch(b"a"), Turn::Arrive(5, pack(&[(b"*b", b"z")])), Turn::Leave(9), Turn::Leave(7)];
    let words = (0..2)
        .chain(lengths_start(0)..lengths_start(3))
        .chain((0..4).flat_map(|slot| slot_start(slot)..slot_start(slot) + 3 + 2 * ROW_WORDS));
    for at in words {
        let values =
            [0, 1, 2, 3, 4, 7, 9, 16, 17, 32, 33, 64, 65, 512, 513, 1024, 1025, 32_768, 65_535, draw.below(65_536) as u16];
        for word in values {
            see(&[&good[..], &[Turn::Word(at, word)], &after].concat())?;
        }
    }
    let bytes = (text_start(0)..text_start(0) + 4).chain((0..3).flat_map(|slot| body_start(slot)..body_start(slot) + 9));
    for at in bytes {
        for byte in [0, b'.', b'*', b'?', b'a', b'b', b'c', 255, draw.byte()] {
            see(&[&good[..], &[Turn::Byte(at, byte)], &after].concat())?;
        }
    }
    Ok(())
}
