//! Random sources near the limits of a reading, about as many within them as past them.

use crate::dotted::way;
use crate::draw::Draw;
use crate::texts;
use model::archive::folder;
use model::limits::{BODIES_BYTES, ENTRIES, OPENS, TEXT_BYTES};
use records::Source;

pub fn source(draw: &mut Draw) -> Source {
    match draw.below(14) {
        0..=2 => many_entries(draw),
        3..=6 => full_store(draw),
        7 => many_opens(draw),
        8 | 9 => deep(draw),
        10 | 11 => long_text(draw),
        _ => wide_keys(draw),
    }
}

/// A limit, or up to three less or more.
fn near(draw: &mut Draw, limit: usize) -> usize {
    limit - 3 + draw.below(7)
}

fn include(name: &[u8]) -> Vec<u8> {
    [b"#include \"", name, b"\"\n"].concat()
}

/// An include of a file from another, in one of three by a name with dots.
fn include_from(draw: &mut Draw, from: &[u8], file: &[u8]) -> Vec<u8> {
    let from = folder(from);
    if draw.one_in(3) {
        return include(&way(draw, from, file));
    }
    include(if from.is_empty() { file } else { &file[from.len() + 1..] })
}

/// Lines in an order of their own.
fn shuffled(draw: &mut Draw, mut lines: Vec<Vec<u8>>) -> Vec<u8> {
    for at in (1..lines.len()).rev() {
        lines.swap(at, draw.below(at + 1));
    }
    lines.concat()
}

fn short_line(draw: &mut Draw) -> Vec<u8> {
    let parts = draw.between(1, 3);
    [texts::key(draw, parts), b": ".to_vec(), vec![b'v'; draw.below(4)], b"\n".to_vec()].concat()
}

/// A line that makes no entry.
fn idle_line(draw: &mut Draw) -> Vec<u8> {
    draw.pick(&[b"\n".as_slice(), b"!a:1\n", b"#a:1\n", b"a.?:1\n", b" a:1\n", b"a\n"]).to_vec()
}

/// About 512 entries, some of them by includes; now and then one of 17 parts among them.
fn many_entries(draw: &mut Draw) -> Source {
    let total = near(draw, ENTRIES);
    let in_file = draw.between(1, 100);
    let includes = draw.below(total / in_file + 1);
    let mut lines: Vec<Vec<u8>> = (0..total - includes * in_file).map(|_| short_line(draw)).collect();
    lines.extend((0..includes).map(|_| include_from(draw, b"", b"p")));
    for _ in 0..draw.below(20) {
        lines.push(idle_line(draw));
    }
    if draw.one_in(6) {
        lines.push([texts::key(draw, 17), b":\n".to_vec()].concat());
    }
    let body: Vec<u8> = (0..in_file).flat_map(|_| short_line(draw)).collect();
    Source::with(&shuffled(draw, lines), &[(b"p", &body)])
}

/// Ends of a value, and how many bytes each adds to the store.
const ENDS: [(&[u8], usize); 9] =
    [(b"", 0), (b"\\12z", 4), (b"\\1z", 3), (b"\\q", 2), (b"\\", 1), (b"\\12", 0), (b"\\101", 1), (b"\\\\", 1), (b"\\\n", 0)];

/// Keys and values of about 32,768 bytes, the most of them by includes.
fn full_store(draw: &mut Draw) -> Source {
    let total = near(draw, BODIES_BYTES);
    let one = draw.between(100, 5_000);
    let body = [b"a:".to_vec(), decoding_to(draw, one - 2)].concat();
    let times = (total / one).saturating_sub(draw.below(3));
    let mut lines = vec![include(b"p"); times];
    let mut left = total - times * one;
    while left > 3_000 {
        let size = draw.between(100, 2_000);
        lines.push([b"b:".to_vec(), decoding_to(draw, size - 2), b"\n".to_vec()].concat());
        left -= size;
    }
    let mut text = shuffled(draw, lines);
    let (end, size) = ENDS[draw.below(ENDS.len())];
    if left >= 2 + size {
        text.extend([b"c:", &vec![b'z'; left - 2 - size][..], end].concat());
    }
    Source::with(&text, &[(b"p", &body)])
}

/// A value of so many bytes, some of them escaped.
fn decoding_to(draw: &mut Draw, size: usize) -> Vec<u8> {
    let mut value = vec![b'x'];
    for _ in 1..size {
        match draw.below(24) {
            0 => value.extend(b"\\n"),
            1 => value.extend(b"\\101"),
            2 => value.extend(b"\\\\"),
            3 => value.extend(b"\\\ny"),
            _ => value.push(b'z'),
        }
    }
    value
}

/// About 4,096 opens, in two depths.
fn many_opens(draw: &mut Draw) -> Source {
    let total = near(draw, OPENS);
    let inner = draw.between(2, 60);
    let times = total / (inner + 1);
    let mut text = include(b"p").repeat(times);
    text.extend(include(b"q").repeat(total - times * (inner + 1)));
    text.extend(short_line(draw));
    Source::with(&text, &[(b"p", &include(b"q").repeat(inner)), (b"q", b"! Nothing\n")])
}

/// Files in a ring, read until the depths end, with entries and a leaf on the way.
fn deep(draw: &mut Draw) -> Source {
    let count = draw.between(1, 63);
    let folder = draw.pick(&[b"".as_slice(), b"d/", b"d/e/"]);
    let leaf = [folder, b"leaf"].concat();
    let name = |n: usize| [folder, format!("f{n}").as_bytes()].concat();
    let mut files = vec![(leaf.clone(), short_line(draw))];
    for n in 0..count {
        let mut body = Vec::new();
        if draw.one_in(2) {
            body.extend(short_line(draw));
        }
        if draw.one_in(3) {
            body.extend(include_from(draw, &leaf, &leaf));
        }
        body.extend(include_from(draw, &leaf, &name((n + 1) % count)));
        if draw.one_in(2) {
            body.extend(short_line(draw));
        }
        if draw.one_in(3) {
            body.extend(include_from(draw, &leaf, &leaf));
        }
        files.push((name(n), body));
    }
    let mut text = include_from(draw, b"", &name(0));
    text.extend(short_line(draw));
    let files: Vec<(&[u8], &[u8])> = files.iter().map(|(name, body)| (&name[..], &body[..])).collect();
    Source::with(&text, &files)
}

/// A text of about 32,768 bytes, cut wherever that is.
fn long_text(draw: &mut Draw) -> Source {
    let length = near(draw, TEXT_BYTES);
    let mut text = Vec::new();
    while text.len() < length {
        let more = draw.between(1, 300);
        let line = match draw.below(4) {
            0 => [b"!".to_vec(), vec![b'c'; more]].concat(),
            1 => vec![b' '; more],
            _ => [texts::key(draw, 2), b":".to_vec(), decoding_to(draw, more)].concat(),
        };
        text.extend(line);
        text.push(b'\n');
    }
    text.truncate(length);
    Source::plain(&text)
}

/// Lines of 14 to 17 parts.
fn wide_keys(draw: &mut Draw) -> Source {
    let mut text = Vec::new();
    for _ in 0..draw.between(1, 4) {
        let parts = draw.between(14, 16) + usize::from(draw.one_in(4));
        text.extend(texts::key(draw, parts));
        text.extend(draw.pick(&[b":1\n".as_slice(), b" :1\n", b".?:1\n", b" 1\n", b"\t:\n", b".:1\n"]));
    }
    Source::plain(&text)
}
