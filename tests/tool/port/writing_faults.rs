//! Shows that the comparison of the writing call can fail: calls with a fault each, every one of which it must see.

use crate::faults::{each_seen, peek, poke};
use crate::writing::Write;
use crate::writing_tests::{comparison_with_the_rust, whole_comparison};
use model::limits::WRITTEN_BYTES;
use port::write_word;

const FAULTS: [(&str, Write); 24] = [
    ("every blank is escaped", |c, b, t| with_values(c, b, t, |value| escaped_blanks(value, |_| true))),
    ("no blank is escaped", |c, b, t| with_values(c, b, t, |value| without_a_backslash(value, b"\\ ", b"\\\t"))),
    ("a tab that begins is plain", |c, b, t| with_values(c, b, t, |value| without_a_backslash(value, b"\\\t", b"\\\t"))),
    ("a blank at the end is escaped", |c, b, t| with_values(c, b, t, |value| escaped_blanks(value, |last| last))),
    ("the first newline alone is escaped", |c, b, t| with_values(c, b, t, first_newline_alone)),
    ("a newline is escaped and joined", |c, b, t| with_values(c, b, t, |value| replaced(value, b"\\n", b"\\n\\\n"))),
    ("a backslash is single", |c, b, t| with_values(c, b, t, |value| replaced(value, b"\\\\", b"\\"))),
    ("a zero byte is octal", |c, b, t| with_values(c, b, t, |value| replaced(value, b"\0", b"\\000"))),
    ("a value ends at a zero byte", |c, b, t| {
        with_values(c, b, t, |value| value.split(|b| *b == 0).next().unwrap_or_default().to_vec())
    }),
    ("no space after the colon", |c, b, t| with_lines(c, b, t, |key, value| [key, b":", value, b"\n"].concat())),
    ("a tab after the colon", |c, b, t| with_lines(c, b, t, |key, value| [key, b":\t", value, b"\n"].concat())),
    ("the first binding is left out", |c, b, t| {
        with_lines(c, b, t, |key, value| [key.strip_prefix(b".").unwrap_or(key), b": ", value, b"\n"].concat())
    }),
    ("an empty value is left out", |c, b, t| {
        with_lines(c, b, t, |key, value| if value.is_empty() { Vec::new() } else { [key, b": ", value, b"\n"].concat() })
    }),
    ("no newline at the end", |c, b, t| with_text(c, b, t, |text| text.strip_suffix(b"\n").unwrap_or(text).to_vec())),
    ("a zero byte after the text", |c, b, t| with_text(c, b, t, |text| [text, b"\0"].concat())),
    ("the text is begun before 11", begun_before_11),
    ("a short buffer is cleared", |c, b, t| on_refusal(c, b, t, 11, |t| t.fill(0))),
    ("no image clears the buffer", |c, b, t| on_refusal(c, b, t, 8, |t| t.fill(0))),
    ("bytes past the text are cleared", |c, b, t| on_written(c, b, t, |word, t| (word, t[(word >> 32) as usize..].fill(0)).0)),
    ("a text's length one more", |c, b, t| on_written(c, b, t, |word, _| word + (1 << 32))),
    ("a text's length one less", |c, b, t| on_written(c, b, t, |word, _| word.saturating_sub(1 << 32))),
    ("something in the lowest bits of a length", |c, b, t| on_written(c, b, t, |word, _| word | word >> 32)),
    ("a buffer just long enough is short", |c, b, t| if text_of(c, b) == Ok(t.len() as u64) { 11 } else { write_word(c, b, t) }),
    ("11 before 8", |c, b, t| if t.is_empty() && text_of(c, b) != Ok(0) { 11 } else { write_word(c, b, t) }),
];

/// Faults that the fences around lent memory stop.
const TRESPASSES: [(&str, Write); 3] = [
    ("writes past the buffer of a text", |c, b, t| {
        poke(t.as_mut_ptr().wrapping_add(t.len()));
        write_word(c, b, t)
    }),
    ("writes before the buffer of a text", |c, b, t| {
        poke(t.as_mut_ptr().wrapping_sub(1));
        write_word(c, b, t)
    }),
    ("reads past the bodies that are written", |c, b, t| peek(b.as_ptr().wrapping_add(b.len()), || write_word(c, b, t))),
];

/// Faults that the Rust must see with no model beside it.
const SEEN_BY_THE_RUST: [&str; 6] = [
    "no blank is escaped",
    "a tab that begins is plain",
    "the first newline alone is escaped",
    "a backslash is single",
    "a value ends at a zero byte",
    "an empty value is left out",
];

/// Holds one fault to the comparison, or none if there is no such fault.
pub fn one(label: &str, with: &str) -> Option<Result<(), String>> {
    let (_, write) = FAULTS.iter().chain(&TRESPASSES).find(|(of, _)| *of == label)?;
    Some(if with == "both" { whole_comparison(*write) } else { comparison_with_the_rust(*write) })
}

/// Each fault in a process of its own.
pub fn all_seen(room: &str) -> Result<String, String> {
    each_seen(&FAULTS.map(|(label, _)| label), &TRESPASSES.map(|(label, _)| label), &SEEN_BY_THE_RUST, room)
}

/// The length of the text, or the refusal.
fn text_of(c: &[u16], b: &[u8]) -> Result<u64, u64> {
    let word = write_word(c, b, &mut vec![0; WRITTEN_BYTES]);
    if word & 0xFFFF == 0 {
        Ok(word >> 32)
    } else {
        Err(word)
    }
}

/// Another text in place of the port's.
fn with_text(c: &[u16], b: &[u8], t: &mut [u8], change: impl Fn(&[u8]) -> Vec<u8>) -> u64 {
    let mut text = vec![0; WRITTEN_BYTES];
    let word = write_word(c, b, &mut text);
    if word & 0xFFFF != 0 {
        return word;
    }
    let text = change(&text[..(word >> 32) as usize]);
    match t.get_mut(..text.len()) {
        Some(front) => front.copy_from_slice(&text),
        None => return 11,
    }
    (text.len() as u64) << 32
}

/// Another line in place of each, made of its key and its value.
fn with_lines(c: &[u16], b: &[u8], t: &mut [u8], change: impl Fn(&[u8], &[u8]) -> Vec<u8>) -> u64 {
    with_text(c, b, t, |text| {
        let lines = text.split_inclusive(|b| *b == b'\n').map(|line| {
            let colon = line.iter().position(|b| *b == b':').expect("a colon");
            change(&line[..colon], &line[colon + 2..line.len() - 1])
        });
        lines.collect::<Vec<_>>().concat()
    })
}

fn with_values(c: &[u16], b: &[u8], t: &mut [u8], change: impl Fn(&[u8]) -> Vec<u8>) -> u64 {
    with_lines(c, b, t, |key, value| [key, b": ", &change(value), b"\n"].concat())
}

/// A backslash before blanks that have none: all, or the last byte alone.
fn escaped_blanks(value: &[u8], which: impl Fn(bool) -> bool) -> Vec<u8> {
    let mut out = Vec::new();
    for (at, b) in value.iter().enumerate() {
        let first = value[..at] == *b"\\";
        if b" \t".contains(b) && !first && which(at + 1 == value.len()) {
            out.push(b'\\');
        }
        out.push(*b);
    }
    out
}

fn without_a_backslash(value: &[u8], one: &[u8], other: &[u8]) -> Vec<u8> {
    let begins = value.starts_with(one) || value.starts_with(other);
    value[usize::from(begins)..].to_vec()
}

/// Each escape in turn, so that a backslash that is doubled begins no other.
fn replaced(value: &[u8], old: &[u8], new: &[u8]) -> Vec<u8> {
    let mut out = Vec::new();
    let mut rest = value;
    while let Some(first) = rest.first() {
        let taken = if *first == b'\\' { 2 } else { 1 };
        let (piece, after) = rest.split_at(taken);
        out.extend(if piece == old { new } else { piece });
        rest = after;
    }
    out
}

fn first_newline_alone(value: &[u8]) -> Vec<u8> {
    let plain = replaced(value, b"\\n", b"\n");
    match plain.iter().position(|b| *b == b'\n') {
        Some(at) => [&plain[..at], b"\\n", &plain[at + 1..]].concat(),
        None => plain,
    }
}

fn begun_before_11(c: &[u16], b: &[u8], t: &mut [u8]) -> u64 {
    let mut text = vec![0; WRITTEN_BYTES];
    let word = write_word(c, b, t);
    if word == 11 && write_word(c, b, &mut text) & 0xFFFF == 0 {
        t.copy_from_slice(&text[..t.len()]);
    }
    word
}

fn on_refusal(c: &[u16], b: &[u8], t: &mut [u8], number: u64, change: impl Fn(&mut [u8])) -> u64 {
    let word = write_word(c, b, t);
    if word == number {
        change(t);
    }
    word
}

fn on_written(c: &[u16], b: &[u8], t: &mut [u8], change: impl Fn(u64, &mut [u8]) -> u64) -> u64 {
    let word = write_word(c, b, t);
    if word & 0xFFFF == 0 {
        change(word, t)
    } else {
        word
    }
}
