//! Random lines, texts and queries around every rule of reading and matching.

use crate::draw::Draw;
use model::query::split;
use records::Query;

/// Few names, so that keys and queries often meet; some begin alike.
const NAMES: [&[u8]; 16] = [b"a", b"a", b"a", b"b", b"b", b"b", b"c", b"A", b"B", b"ab", b"a-b", b"_", b"9", b"-", b"Z0", b"aa"];

const TIGHT: [&[u8]; 6] = [b".", b".", b".", b".", b"..", b"..."];
const LOOSE: [&[u8]; 6] = [b"*", b"*", b"*", b".*", b"*.", b"**"];

/// A text of some lines, many of them entries that align with the query. The last may lack its
/// newline.
pub fn text(draw: &mut Draw, most_lines: usize, query: &Query) -> Vec<u8> {
    let mut text = Vec::new();
    for _ in 0..draw.between(0, most_lines) {
        text.extend(line(draw, query));
        text.extend(line_end(draw));
    }
    if draw.one_in(3) {
        text.pop();
    }
    text
}

/// Entries alone, made from alignments with the query, and only three values.
pub fn text_of_few_values(draw: &mut Draw, most_lines: usize, query: &Query) -> Vec<u8> {
    let mut text = Vec::new();
    for _ in 0..draw.between(0, most_lines) {
        let skips = draw.below(6);
        text.extend(aligned_key(draw, query, skips));
        text.extend(draw.pick(&[b":\n".as_slice(), b":1\n", b":2\n"]));
    }
    text
}

fn line_end(draw: &mut Draw) -> &'static [u8] {
    if draw.one_in(30) {
        b"\r\n"
    } else {
        b"\n"
    }
}

fn line(draw: &mut Draw, query: &Query) -> Vec<u8> {
    match draw.below(16) {
        0 => Vec::new(),
        1 => [b"!".to_vec(), junk(draw)].concat(),
        2 => [b"#".to_vec(), junk(draw)].concat(),
        3 => bad_entry(draw),
        4 => junk(draw),
        5..=8 => {
            let parts = if draw.one_in(30) { draw.between(14, 17) } else { draw.between(1, 4) };
            let key = key(draw, parts);
            entry(draw, key)
        }
        _ => {
            let key = aligned_key(draw, query, 2);
            entry(draw, key)
        }
    }
}

fn entry(draw: &mut Draw, key: Vec<u8>) -> Vec<u8> {
    let spaces = draw.pick(&[b"".as_slice(), b"", b" ", b"  "]).to_vec();
    [key, spaces, b":".to_vec(), blanks(draw), value(draw)].concat()
}

/// As many parts, of which the last is a name. A `?` may adjoin its neighbours.
pub fn key(draw: &mut Draw, parts: usize) -> Vec<u8> {
    let mut key = Vec::new();
    for part in 0..parts {
        let loose = draw.one_in(3);
        let component: &[u8] = if part + 1 < parts && draw.one_in(4) { b"?" } else { draw.pick(&NAMES) };
        put_part(draw, &mut key, loose, component);
    }
    key
}

fn put_part(draw: &mut Draw, key: &mut Vec<u8>, loose: bool, component: &[u8]) {
    let may_adjoin = key.is_empty() || key.ends_with(b"?") || component == b"?";
    if loose {
        key.extend(draw.pick(&LOOSE));
    } else if !(may_adjoin && draw.one_in(2)) {
        key.extend(draw.pick(&TIGHT));
    }
    key.extend(component);
}

/// A key made from an alignment with the query that skips about `skips` positions in eight, now and
/// then with a part that spoils it.
pub fn aligned_key(draw: &mut Draw, query: &Query, skips: usize) -> Vec<u8> {
    let name = split(&query.name).unwrap_or_default();
    let class = split(&query.class).unwrap_or_default();
    let length = name.len().max(class.len());
    let spoilt = if draw.one_in(8) { draw.below(length + 1) } else { length };
    let mut key = Vec::new();
    let mut skipped = false;
    for position in 0..length {
        let last = position + 1 == length;
        if !last && draw.below(8) < skips {
            skipped = true;
            continue;
        }
        let component: &[u8] = match (name.get(position), class.get(position)) {
            _ if position == spoilt => draw.pick(&NAMES),
            _ if !last && draw.one_in(4) => b"?",
            (Some(_), Some(class)) if draw.one_in(3) => class,
            (Some(name), _) => name,
            (None, class) => class.expect("one of the two is as long"),
        };
        let loose = skipped || draw.one_in(3);
        put_part(draw, &mut key, loose, component);
        skipped = false;
    }
    if key.is_empty() {
        key.extend(draw.pick(&NAMES));
    }
    key
}

fn blanks(draw: &mut Draw) -> Vec<u8> {
    let mut blanks = Vec::new();
    while draw.one_in(3) {
        blanks.extend(draw.pick(&[b" ".as_slice(), b" ", b"\t", b"\\\n", b"\\\n "]));
    }
    blanks
}

/// A line that misses being an entry by little, or by nothing.
fn bad_entry(draw: &mut Draw) -> Vec<u8> {
    let parts = draw.between(1, 3);
    let mut line = key(draw, parts);
    match draw.below(7) {
        0 => line.insert(0, b' '),
        1 => line.insert(0, b'\t'),
        2 => line.push(b'\t'),
        3 => line.push(draw.pick_byte(b".*?")),
        4 => line.extend(b" b"),
        5 => line.insert(draw.below(line.len() + 1), draw.pick_byte(b"+/ \"\\\x00\x80\xff")),
        _ => return [line, value(draw)].concat(),
    }
    [line, b":".to_vec(), value(draw)].concat()
}

fn junk(draw: &mut Draw) -> Vec<u8> {
    let mut junk = Vec::new();
    for _ in 0..draw.below(8) {
        junk.push(if draw.one_in(4) { draw.byte() } else { draw.pick_byte(b"a:.*? \t\\!#\"1") });
    }
    junk
}

pub fn value(draw: &mut Draw) -> Vec<u8> {
    match draw.below(8) {
        0 => word(draw),
        // Short values of which few are the same, to tell entries apart.
        1..=4 => vec![draw.pick_byte(b"0123456789xyz"), draw.pick_byte(b"0123456789xyz")],
        _ => (0..draw.below(7)).flat_map(|_| piece(draw)).collect(),
    }
}

/// A piece of a value: plain bytes, or an escape, whole or broken.
fn piece(draw: &mut Draw) -> Vec<u8> {
    match draw.below(12) {
        0 => b"\\\n".to_vec(),
        1 => b"\\n".to_vec(),
        2 => vec![b'\\', draw.pick_byte(b" \t\\")],
        3..=5 => {
            let mut octal = vec![b'\\'];
            for _ in 0..draw.between(1, 3) {
                octal.push(draw.pick_byte(b"01234567"));
            }
            octal
        }
        6 => vec![b'\\', draw.byte()],
        7 => vec![draw.byte()],
        8 => vec![draw.pick_byte(b" \t\r\x00\x7f\x80\xff")],
        9 => character(draw),
        _ => vec![draw.pick_byte(b"axyz0178")],
    }
}

/// Good UTF-8, and sequences that are too long, a surrogate, or past the last character.
fn character(draw: &mut Draw) -> Vec<u8> {
    const GOOD: [&str; 3] = ["é", "€", "\u{10348}"];
    const BAD: [&[u8]; 3] = [b"\xc0\x80", b"\xed\xa0\x80", b"\xf4\x90\x80\x80"];
    if draw.one_in(3) {
        draw.pick(&BAD).to_vec()
    } else {
        draw.pick(&GOOD).as_bytes().to_vec()
    }
}

/// Words that mean a boolean or a number, or nearly do.
pub fn word(draw: &mut Draw) -> Vec<u8> {
    const WORDS: [&[u8]; 12] =
        [b"true", b"on", b"yes", b"false", b"off", b"no", b"tru", b"yess", b"o", b"", b"not", b"truefalse"];
    if draw.one_in(2) {
        let mut word = draw.pick(&WORDS).to_vec();
        for b in &mut word {
            if draw.one_in(3) {
                b.make_ascii_uppercase();
            }
        }
        return word;
    }
    number(draw)
}

fn number(draw: &mut Draw) -> Vec<u8> {
    const SIGNS: [&[u8]; 9] = [b"", b"", b"", b"", b"-", b"+", b"--", b"+-", b" "];
    const FAR: [&[u8]; 4] = [b"9223372036854775807", b"9223372036854775808", b"9223372036854775809", b"18446744073709551616"];
    const NEAR: [&[u8]; 8] = [b"0", b"00", b"000000000000000000000000", b"1", b"5", b"0x1", b"1_0", b"1."];
    let mut number = draw.pick(&SIGNS).to_vec();
    match draw.below(4) {
        0 => number.extend(draw.pick(&FAR)),
        1 => number.extend(draw.pick(&NEAR)),
        _ => number.extend((0..draw.between(1, 21)).map(|_| draw.pick_byte(b"0123456789"))),
    }
    number
}

/// A name and a class of a few parts, often as long as each other; seldom a malformed one.
pub fn query(draw: &mut Draw) -> Query {
    let parts = [0, 1, 1, 2, 2, 2, 3, 3, 4, 5][draw.below(10)];
    let name = query_text(draw, parts);
    let class = match draw.below(4) {
        0 => Vec::new(),
        1 => {
            let parts = draw.between(0, 5);
            query_text(draw, parts)
        }
        _ => query_text(draw, parts),
    };
    Query { name, class }
}

fn query_text(draw: &mut Draw, parts: usize) -> Vec<u8> {
    let mut query = Vec::new();
    for part in 0..parts {
        if part > 0 {
            query.extend(if draw.one_in(12) { b"..".as_slice() } else { b"." });
        }
        query.extend(draw.pick(&NAMES));
    }
    if draw.one_in(40) {
        query.push(b'.');
    }
    if draw.one_in(40) {
        let at = draw.below(query.len() + 1);
        query.insert(at, draw.pick_byte(b".*?: \\\x00a"));
    }
    query
}
