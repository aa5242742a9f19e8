//! Shows that the comparisons of lookups can fail: ports with a fault each, every one of which they
//! must see. A faulty port is the port with something done to what it takes or to what it answers.

use crate::asking::{Lookup, Lookups, ShowLookup, ValueLookup, PORTS};
use crate::faults::{each_seen, peek, poke, status};
use crate::third::{Telling, Third};
use crate::{both, lookup_tests};
use cases::readings::Extent;
use cases::struck::FAMILIES;
use model::limits::ROW_WORDS;
use port::{get_bool_word, get_bytes_word, get_string_word, get_value_word, show_word};

const fn bytes(get_bytes: Lookup) -> Lookups {
    Lookups { get_bytes, ..PORTS }
}

const fn string(get_string: Lookup) -> Lookups {
    Lookups { get_string, ..PORTS }
}

const fn boolean(get_bool: Lookup) -> Lookups {
    Lookups { get_bool, ..PORTS }
}

const fn value(get_value: ValueLookup) -> Lookups {
    Lookups { get_value, ..PORTS }
}

const fn show(show: ShowLookup) -> Lookups {
    Lookups { show, ..PORTS }
}

const FAULTS: [(&str, Lookups); 36] = [
    ("none always", bytes(|c, b, n, k| on_found(get_bytes_word(c, b, n, k), |_| 65_535))),
    ("the first of equals", bytes(first_of_equals)),
    ("a length one less", bytes(|c, b, n, k| on_found(get_bytes_word(c, b, n, k), |word| word.saturating_sub(1 << 32)))),
    ("a length one more", bytes(|c, b, n, k| on_found(get_bytes_word(c, b, n, k), |word| word + (1 << 32)))),
    ("a place one more", bytes(|c, b, n, k| on_found(get_bytes_word(c, b, n, k), |word| word + (1 << 16)))),
    ("something in the lowest bits", bytes(|c, b, n, k| on_found(get_bytes_word(c, b, n, k), |word| word | 1))),
    (
        "an empty value is none",
        bytes(|c, b, n, k| on_found(get_bytes_word(c, b, n, k), |word| if word >> 32 == 0 { 65_535 } else { word })),
    ),
    ("the class is not looked at", bytes(|c, b, n, _| get_bytes_word(c, b, n, b""))),
    ("name and class changed about", bytes(|c, b, n, k| get_bytes_word(c, b, k, n))),
    ("a first dot is passed", bytes(|c, b, n, k| get_bytes_word(c, b, n.strip_prefix(b".").unwrap_or(n), k))),
    ("no image gives none", bytes(|c, b, n, k| on_number(get_bytes_word(c, b, n, k), 8, 65_535))),
    ("a long query gives none", bytes(|c, b, n, k| on_number(get_bytes_word(c, b, n, k), 9, 65_535))),
    ("a wide query gives none", bytes(|c, b, n, k| on_number(get_bytes_word(c, b, n, k), 10, 65_535))),
    ("9 before 8", bytes(|c, b, n, k| if n.len() > 1024 { 9 } else { get_bytes_word(c, b, n, k) })),
    ("10 before malformed", bytes(|c, b, n, k| if wide(n) { 10 } else { get_bytes_word(c, b, n, k) })),
    ("10 before 9", bytes(|c, b, n, k| on_number(get_bytes_word(c, b, n, k), 9, if wide(n) { 10 } else { 9 }))),
    ("a query of 1,023 bytes", bytes(|c, b, n, k| if n.len() == 1024 { 9 } else { get_bytes_word(c, b, n, k) })),
    (
        "a query of 31 parts",
        bytes(|c, b, n, k| if n.split(|b| *b == b'.').count() == 32 { 10 } else { get_bytes_word(c, b, n, k) }),
    ),
    (
        "513 entries are an image",
        bytes(|c, b, n, k| on_number(get_bytes_word(c, b, n, k), 8, if c.first() == Some(&513) { 65_535 } else { 8 })),
    ),
    ("a byte of the bodies is changed", bytes(|c, b, n, k| change(b, get_bytes_word(c, b, n, k)))),
    ("a word of the contents is changed", bytes(|c, b, n, k| change(c, get_bytes_word(c, b, n, k)))),
    ("a byte of the class is changed", bytes(|c, b, n, k| change(k, get_bytes_word(c, b, n, k)))),
    ("a string of any bytes", string(get_bytes_word)),
    ("no string", string(|c, b, n, k| on_found(get_string_word(c, b, n, k), |_| 65_535))),
    ("a boolean turned about", boolean(|c, b, n, k| on_found(get_bool_word(c, b, n, k), |word| word ^ 65_536))),
    ("none is false", boolean(|c, b, n, k| on_number(get_bool_word(c, b, n, k), 65_535, 0))),
    ("a number one more", value(|c, b, n, k, out| number_word(c, b, n, k, out, |out| out.wrapping_add(1)))),
    ("a number without its sign", value(|c, b, n, k, out| number_word(c, b, n, k, out, i64::wrapping_abs))),
    ("not a number is none", value(|c, b, n, k, out| on_number(get_value_word(c, b, n, k, out), 65_534, 65_535))),
    ("none is written as 0", value(zero_without_a_number)),
    ("a number is not written", value(|c, b, n, k, _| get_value_word(c, b, n, k, &mut 0))),
    ("the default is always shown", show(|c, b, n, k, _| get_bytes_word(c, b, n, k))),
    ("an empty value shows a part of the default", show(empty_of_the_default)),
    ("an empty value shows another part of the bodies", show(empty_at_the_start)),
    ("none shows nothing", show(nothing_for_none)),
    ("a default has another word", show(|c, b, n, k, shown| on_number(show_word(c, b, n, k, shown), 65_535, 0))),
];

/// Faults that the fences around lent memory stop.
const TRESPASSES: [(&str, Lookups); 4] = [
    ("reads past the name", bytes(|c, b, n, k| peek(n.as_ptr().wrapping_add(n.len()), || get_bytes_word(c, b, n, k)))),
    ("reads before the class", bytes(|c, b, n, k| peek(k.as_ptr().wrapping_sub(1), || get_bytes_word(c, b, n, k)))),
    ("reads past the contents", bytes(|c, b, n, k| peek(c.as_ptr().wrapping_add(c.len()).cast(), || get_bytes_word(c, b, n, k)))),
    ("writes before the bodies of a lookup", bytes(writes_before_the_bodies)),
];

/// Faults that the Rust must see with no model beside it.
const SEEN_BY_THE_RUST: [&str; 9] = [
    "none always",
    "the first of equals",
    "a length one less",
    "an empty value is none",
    "a first dot is passed",
    "a string of any bytes",
    "a boolean turned about",
    "a number one more",
    "not a number is none",
];

/// Faults that the run of the third term must see.
const SEEN_BY_THE_THIRD_TERM: [&str; 5] =
    ["none always", "the first of equals", "a length one more", "an empty value is none", "a byte of the bodies is changed"];

/// Faults of the third term alone: each answer is the model's, and then another is told.
const TELLINGS: [(&str, Telling); 4] = [
    ("both answers are those with the file", |(with_it, _)| (with_it.clone(), with_it)),
    ("both answers are those without the file", |(_, without)| (without.clone(), without)),
    ("nothing is found without the file", |(with_it, _)| (with_it, None)),
    ("answers are equal if both are there", |answers| match answers {
        (Some(with_it), Some(_)) => (Some(with_it.clone()), Some(with_it)),
        answers => answers,
    }),
];

/// Holds one fault to the comparison, or none if there is no such fault.
pub fn one(label: &str, with: &str, room: &str) -> Option<Result<(), String>> {
    if let Some((_, telling)) = TELLINGS.iter().find(|(of, _)| *of == label) {
        return Some(third_term(get_bytes_word, *telling));
    }
    let (_, lookups) = FAULTS.iter().chain(&TRESPASSES).find(|(of, _)| *of == label)?;
    Some(match with {
        "both" => lookup_tests::whole_comparison(*lookups, room),
        "third" => third_term(lookups.get_bytes, |answers| answers),
        _ => lookup_tests::comparison_with_the_rust(*lookups, room),
    })
}

fn third_term(get_bytes: Lookup, telling: Telling) -> Result<(), String> {
    let mut third = Third::new(both::PORTS, get_bytes, telling);
    let (_, family) = FAMILIES[1];
    family(Extent { seed: 1, times: 1 }, &mut |source, which, queries| third.see(source, which, queries))
}

/// Each fault in a process of its own.
pub fn all_seen(room: &str) -> Result<String, String> {
    let seen = each_seen(&FAULTS.map(|(label, _)| label), &TRESPASSES.map(|(label, _)| label), &SEEN_BY_THE_RUST, room)?;
    for label in SEEN_BY_THE_THIRD_TERM.into_iter().chain(TELLINGS.map(|(label, _)| label)) {
        if status(label, "third", room)?.code() != Some(1) {
            return Err(format!("not seen by the third term: {label}"));
        }
    }
    let third = SEEN_BY_THE_THIRD_TERM.len() + TELLINGS.len();
    Ok(format!("{seen}; {third} faults seen by the third term, {} of them in equal answers alone", TELLINGS.len()))
}

/// Something done to the word of a value that was found.
fn on_found(word: u64, change: impl Fn(u64) -> u64) -> u64 {
    if word & 0xFFFF == 0 {
        change(word)
    } else {
        word
    }
}

/// Another word in the place of one.
fn on_number(word: u64, number: u64, other: u64) -> u64 {
    if word == number {
        other
    } else {
        word
    }
}

/// Whether the start of a query has over 32 parts.
fn wide(query: &[u8]) -> bool {
    query[..query.len().min(2_000)].split(|b| *b == b'.').filter(|part| !part.is_empty()).count() > 32
}

/// Looks up in a copy of the image whose entries stand in the opposite order.
fn first_of_equals(c: &[u16], b: &[u8], n: &[u8], k: &[u8]) -> u64 {
    if get_bytes_word(c, b, n, k) & 0xFFFF != 0 {
        return get_bytes_word(c, b, n, k);
    }
    let (mut contents, mut bodies) = (vec![0; c.len()], vec![0; b.len()]);
    contents[..2].copy_from_slice(&c[..2]);
    let mut used = 0;
    let mut places = Vec::new();
    for (number, row) in c[2..].chunks(ROW_WORDS).take(c[0].into()).collect::<Vec<_>>().into_iter().rev().enumerate() {
        let [start, key, value] = [row[0], row[1], row[2]].map(usize::from);
        contents[2 + ROW_WORDS * number..][..ROW_WORDS].copy_from_slice(&[used as u16, row[1], row[2], row[3]]);
        bodies[used..used + key + value].copy_from_slice(&b[start..start + key + value]);
        places.push((used + key, start + key));
        used += key + value;
    }
    on_found(get_bytes_word(&contents, &bodies, n, k), |word| {
        let place = (word >> 16 & 0xFFFF) as usize;
        let (_, original) = places.iter().find(|(of, _)| *of == place).expect("the place of a value");
        word >> 32 << 32 | (*original as u64) << 16
    })
}

fn number_word(c: &[u16], b: &[u8], n: &[u8], k: &[u8], out: &mut i64, change: impl Fn(i64) -> i64) -> u64 {
    let word = get_value_word(c, b, n, k, out);
    if word == 0 {
        *out = change(*out);
    }
    word
}

fn zero_without_a_number(c: &[u16], b: &[u8], n: &[u8], k: &[u8], out: &mut i64) -> u64 {
    let word = get_value_word(c, b, n, k, out);
    if word != 0 {
        *out = 0;
    }
    word
}

fn empty_of_the_default<'a>(c: &[u16], b: &'a [u8], n: &[u8], k: &[u8], shown: &mut &'a [u8]) -> u64 {
    let default = *shown;
    let word = show_word(c, b, n, k, shown);
    if shown.is_empty() {
        *shown = &default[..0];
    }
    word
}

fn empty_at_the_start<'a>(c: &[u16], b: &'a [u8], n: &[u8], k: &[u8], shown: &mut &'a [u8]) -> u64 {
    let word = show_word(c, b, n, k, shown);
    if shown.is_empty() {
        *shown = &b[..0];
    }
    word
}

fn nothing_for_none<'a>(c: &[u16], b: &'a [u8], n: &[u8], k: &[u8], shown: &mut &'a [u8]) -> u64 {
    let word = show_word(c, b, n, k, shown);
    if word == 65_535 {
        *shown = &b[..0];
    }
    word
}

/// Writes where a lookup may not: the memory behind the slices of a comparison is its own, and writable.
fn change<T>(lent: &[T], word: u64) -> u64 {
    let at: *mut u8 = lent.as_ptr().cast_mut().cast();
    if word & 0xFFFF == 0 && !lent.is_empty() {
        unsafe { at.write_volatile(at.read_volatile() ^ 1) }
    }
    word
}

fn writes_before_the_bodies(c: &[u16], b: &[u8], n: &[u8], k: &[u8]) -> u64 {
    poke(b.as_ptr().wrapping_sub(1).cast_mut());
    get_bytes_word(c, b, n, k)
}
