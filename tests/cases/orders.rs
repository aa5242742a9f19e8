//! Document 02 (vii): entries and packs in another order.

use crate::archives;
use crate::draw::Draw;
use crate::readings::{Extent, Seen};
use crate::texts::{self, aligned_key};
use crate::words::{keys, queries};
use model::archive::judge;
use model::limits::{ENTRIES, GREATEST_DEPTH};
use model::line::{take_line, write_key, Line};
use model::reading::{read, Entry};
use records::{archive_of, Query, Source};
use std::collections::BTreeMap;

/// A source, and the same with its lines rearranged.
pub struct Rearranged {
    pub first: Source,
    pub second: Source,
    /// Whether the request says that all answers are alike.
    pub is_alike: bool,
}

/// Called with each pair of a family, and what to look up in both.
pub type See<'a> = &'a mut dyn FnMut(&Rearranged, &[Query]) -> Seen;

pub type Family = fn(Extent, See) -> Seen;

pub const FAMILIES: [(&str, Family); 6] = [
    ("two-lines", two_lines),
    ("three-lines", three_lines),
    ("entries", random_entries),
    ("near-limits", near_the_limits),
    ("packs", packs),
    ("archives", random_archives),
];

/// The same entries, those of equal key in the same order.
fn of_entries(first: Source, second: Source) -> Rearranged {
    let is_alike = match (entries(&first), entries(&second)) {
        (Some(first), Some(second)) => values(&first) == values(&second),
        _ => false,
    };
    Rearranged { first, second, is_alike }
}

/// No key comes through two different files that the main text includes.
fn of_packs(first: Source, second: Source) -> Rearranged {
    let is_alike = entries(&first).is_some_and(|entries| one_file_each(&entries));
    Rearranged { first, second, is_alike }
}

/// Two main texts of include lines, at the greatest depth and at a small one.
fn see_packs(see: See, first: &Source, second: &Source, queries: &[Query]) -> Seen {
    let small = second.texts()[0].len() as u64 % 3;
    [GREATEST_DEPTH, small].iter().try_for_each(|depth| see(&of_packs(first.at(*depth), second.at(*depth)), queries))
}

/// The entries of a source with their chains; none if a reading is refused.
fn entries(source: &Source) -> Option<Vec<Entry>> {
    Some(read(&source.texts(), &judge(&source.archive)?, source.depth).ok()?.entries)
}

/// For every key, the values under it in their order.
fn values(entries: &[Entry]) -> BTreeMap<Vec<u8>, Vec<&[u8]>> {
    let mut under: BTreeMap<Vec<u8>, Vec<&[u8]>> = BTreeMap::new();
    for entry in entries {
        under.entry(write_key(&entry.key)).or_default().push(&entry.value);
    }
    under
}

fn one_file_each(entries: &[Entry]) -> bool {
    let mut through: BTreeMap<Vec<u8>, &[u8]> = BTreeMap::new();
    entries.iter().all(|entry| {
        let file: &[u8] = entry.chain.first().map_or(b"", |file| file);
        *through.entry(write_key(&entry.key)).or_insert(file) == file
    })
}

/// A line's key as an image writes it.
fn written(key: &[u8]) -> Vec<u8> {
    match take_line(&[key, b":"].concat()).0 {
        Line::Entry { key, .. } => write_key(&key),
        _ => panic!("no key: {}", key.escape_ascii()),
    }
}

/// The numbers under `n` in some order.
fn some_order(draw: &mut Draw, n: usize) -> Vec<usize> {
    let mut order: Vec<usize> = (0..n).collect();
    for at in (1..n).rev() {
        order.swap(at, draw.below(at + 1));
    }
    order
}

/// The same places for each key, with its lines in their first order.
fn with_keys_in_order(order: &[usize], keys: &[Vec<u8>]) -> Vec<usize> {
    let mut next: BTreeMap<&[u8], usize> = BTreeMap::new();
    let place = |which: &usize| {
        let from = next.entry(&keys[*which]).or_default();
        let line = (*from..keys.len()).find(|line| keys[*line] == keys[*which]).expect("as many lines as places");
        *from = line + 1;
        line
    };
    order.iter().map(place).collect()
}

fn joined(lines: &[Vec<u8>], order: &[usize]) -> Vec<u8> {
    order.iter().flat_map(|line| [&lines[*line][..], b"\n"].concat()).collect()
}

/// Every two keys of up to three parts, in both orders.
fn two_lines(_: Extent, see: See) -> Seen {
    let all: Vec<Query> = queries(b"ab", 3).iter().map(|name| Query::new(name, b"b.a")).collect();
    let keys = keys(3);
    keys.iter().enumerate().try_for_each(|(number, one)| {
        keys[number..].iter().try_for_each(|other| {
            let (one, other) = ([one, b":1\n".as_slice()].concat(), [other, b":on\n".as_slice()].concat());
            let pair = of_entries(Source::plain(&[&one[..], &other].concat()), Source::plain(&[&other[..], &one].concat()));
            see(&pair, &all)
        })
    })
}

/// Every three keys of up to two parts, in two orders.
fn three_lines(extent: Extent, see: See) -> Seen {
    let all: Vec<Query> = queries(b"ab", 2).iter().map(|name| Query::new(name, b"")).collect();
    let keys = keys(2);
    let draw = &mut Draw::new(extent.seed, "orders of three lines");
    for first in &keys {
        for second in &keys {
            for third in &keys {
                let lines: Vec<Vec<u8>> = [first, second, third]
                    .iter()
                    .zip(["1", "2", "3"])
                    .map(|(key, value)| [key, ":".as_bytes(), value.as_bytes()].concat())
                    .collect();
                let order = some_order(draw, 3);
                see(&of_entries(Source::plain(&joined(&lines, &[0, 1, 2])), Source::plain(&joined(&lines, &order))), &all)?;
            }
        }
    }
    Ok(())
}

/// Entries of few keys that align with a query, each with a value of its own: with those of equal key in order, and as they come.
fn random_entries(extent: Extent, see: See) -> Seen {
    extent.draw("orders of entries", 12_000, |draw| {
        let query = texts::query(draw);
        let pool: Vec<Vec<u8>> = (0..draw.between(1, 5))
            .map(|_| {
                let skips = draw.below(5);
                aligned_key(draw, &query, skips)
            })
            .collect();
        let keys: Vec<Vec<u8>> = (0..draw.between(2, 9)).map(|_| pool[draw.below(pool.len())].clone()).collect();
        let lines: Vec<Vec<u8>> = keys.iter().enumerate().map(|(n, key)| [key, format!(":{n}").as_bytes()].concat()).collect();
        let order = some_order(draw, lines.len());
        let kept = with_keys_in_order(&order, &keys.iter().map(|key| written(key)).collect::<Vec<_>>());
        let first = Source::plain(&joined(&lines, &(0..lines.len()).collect::<Vec<_>>()));
        let all = [query, texts::query(draw)];
        [kept, order].iter().try_for_each(|order| see(&of_entries(first.clone(), Source::plain(&joined(&lines, order))), &all))
    })
}

/// Texts of many entries, at 512 and past it, in any order.
fn near_the_limits(extent: Extent, see: See) -> Seen {
    extent.draw("orders near the limits", 200, |draw| {
        let query = texts::query(draw);
        let count = [ENTRIES - 1, ENTRIES, ENTRIES + 1, draw.between(100, ENTRIES)][draw.below(4)];
        let keys: Vec<Vec<u8>> = (0..count)
            .map(|n| match draw.below(3) {
                0 => format!("*x{n}").into_bytes(),
                _ => {
                    let skips = draw.below(3);
                    aligned_key(draw, &query, skips)
                }
            })
            .collect();
        let lines: Vec<Vec<u8>> = keys.iter().enumerate().map(|(n, key)| [key, format!(":{n}").as_bytes()].concat()).collect();
        let order = some_order(draw, count);
        let kept = with_keys_in_order(&order, &keys.iter().map(|key| written(key)).collect::<Vec<_>>());
        let first = Source::plain(&joined(&lines, &(0..count).collect::<Vec<_>>()));
        let all = [query, texts::query(draw)];
        [kept, order].iter().try_for_each(|order| see(&of_entries(first.clone(), Source::plain(&joined(&lines, order))), &all))
    })
}

/// Packs that mostly have keys of their own, some of them by way of a file that they include, and included in some order, some more than
/// once or by another name. Some have so many bytes that the store is full.
fn packs(extent: Extent, see: See) -> Seen {
    const NAMES: [(&[u8], &[u8]); 4] = [(b"p", b"in/p"), (b"q", b"in/q"), (b"d/r", b"d/in"), (b"s", b"in/s")];
    extent.draw("orders of packs", 6_000, |draw| {
        let query = texts::query(draw);
        let count = draw.between(2, NAMES.len());
        let shared = draw.one_in(3);
        let is_long = draw.one_in(10);
        let mut files: Vec<(Vec<u8>, Vec<u8>)> = Vec::new();
        let mut taken: Vec<Vec<u8>> = Vec::new();
        let mut value = 0;
        for (pack, inner) in &NAMES[..count] {
            let fresh = |draw: &mut Draw| {
                let skips = draw.below(5);
                aligned_key(draw, &query, skips)
            };
            let pool: Vec<Vec<u8>> = (0..3).map(|_| fresh(draw)).filter(|key| shared || !taken.contains(&written(key))).collect();
            taken.extend(pool.iter().map(|key| written(key)));
            let mut lines = |draw: &mut Draw| {
                let mut text = Vec::new();
                for _ in 0..draw.below(4).min(pool.len()) {
                    value += 1;
                    let long = if is_long { draw.between(2_000, 5_000) } else { 0 };
                    text.extend(
                        [&pool[draw.below(pool.len())][..], format!(":{value}{}\n", "z".repeat(long)).as_bytes()].concat(),
                    );
                }
                text
            };
            let name = inner.strip_prefix(b"d/").unwrap_or(inner);
            let include = if draw.one_in(2) { [b"#include \"", name, b"\"\n"].concat() } else { Vec::new() };
            files.push((pack.to_vec(), [lines(draw), include, lines(draw)].concat()));
            files.push((inner.to_vec(), lines(draw)));
        }
        let files: Vec<(&[u8], &[u8])> = files.iter().map(|(name, body)| (&name[..], &body[..])).collect();
        let lines = include_lines(draw, 6, &NAMES[..count].iter().map(|(pack, _)| *pack).collect::<Vec<_>>());
        let order = some_order(draw, lines.len());
        let first = joined(&lines, &(0..lines.len()).collect::<Vec<_>>());
        let all = [query, texts::query(draw)];
        see_packs(&mut *see, &Source::with(&first, &files), &Source::text(joined(&lines, &order), archive_of(&files)), &all)
    })
}

/// Two to `most` lines that include some of these files.
fn include_lines(draw: &mut Draw, most: usize, names: &[&[u8]]) -> Vec<Vec<u8>> {
    let count = draw.between(2, most);
    let line = |_| {
        let name = draw.pick(names);
        let spaces = draw.pick(&[b"".as_slice(), b" ", b"  "]);
        let dots = draw.pick(&[b"".as_slice(), b"", b"./"]);
        let after = draw.pick(&[b"".as_slice(), b"", b" a:1"]);
        [b"#", spaces, b"include", spaces, b"\"", dots, name, b"\"", after].concat()
    };
    (0..count).map(line).collect()
}

/// Include lines alone, with archives whose files include each other: most keys come through more than one.
fn random_archives(extent: Extent, see: See) -> Seen {
    extent.draw("orders of archives", 6_000, |draw| {
        let (source, query) = archives::source_of_few_values(draw);
        let names: Vec<Vec<u8>> =
            judge(&source.archive).expect("a good archive").files.into_iter().map(|file| file.name).collect();
        let lines = include_lines(draw, 4, &names.iter().map(|name| &name[..]).collect::<Vec<_>>());
        let order = some_order(draw, lines.len());
        let first = Source::text(joined(&lines, &(0..lines.len()).collect::<Vec<_>>()), source.archive.clone());
        let all = [query, texts::query(draw)];
        see_packs(&mut *see, &first, &Source::text(joined(&lines, &order), source.archive), &all)
    })
}
