//! Shows that the comparison of start-ups can fail: ports with a fault each, every one of which it must see. A faulty
//! port is the port with something done to the texts that it takes or to what it leaves.

use crate::both::{Calls, ReadDefault, PORTS};
use crate::faults::{each_seen, peek};
use crate::lending::Edit;
use crate::start_up_tests::{comparison_with_the_rust, whole_comparison};
use model::limits::{BODIES_BYTES, CONTENTS_WORDS, TEXT_BYTES};
use port::{read_default_word, read_word, StartUp, Text};

const EMPTY: Text = Text { read: 1, bytes: b"" };

/// Faults in which texts are used.
pub const EDITS: [(&str, Edit); 11] = [
    ("the host's text although XENVIRONMENT is set", |s| match s.xenvironment.read {
        0 => StartUp { xenvironment_set: 0, ..s },
        _ => s,
    }),
    ("XENVIRONMENT's text although it is not set", |s| match s.xenvironment.read {
        0 => s,
        _ => StartUp { xenvironment_set: 1, ..s },
    }),
    (".Xdefaults where .Xresources is empty", |s| match s.xresources.bytes {
        [] => StartUp { xresources: Text { read: 0, ..s.xresources }, ..s },
        _ => s,
    }),
    (".Xdefaults before .Xresources", |s| StartUp { xresources: s.xdefaults, xdefaults: s.xresources, ..s }),
    ("an empty property is taken", |s| match (s.format, s.property) {
        (8, []) => StartUp { property: b"\n", ..s },
        _ => s,
    }),
    ("the format is not looked at", |s| StartUp { format: 8, ..s }),
    ("a flag of 2 is no", |s| on_texts(s, |text| if text.read == 2 { Text { read: 0, ..text } } else { text })),
    ("a text that could not be read is read", |s| on_texts(s, |text| Text { read: 1, ..text })),
    ("the first text is left out", |s| StartUp { format: 0, xresources: EMPTY, ..s }),
    ("the second text is left out", |s| StartUp { xenvironment_set: 1, xenvironment: EMPTY, ..s }),
    ("the second text comes first", |s| {
        let [first, second] = used(&s);
        two(second, first)
    }),
];

/// Faults in what is read, answered and left.
const FAULTS: [(&str, ReadDefault); 14] = [
    ("a long text that is not used", |s, a, c, b| {
        let is_long = |text: Text| text.read != 0 && text.bytes.len() > TEXT_BYTES;
        long_first(s, a, c, b, [s.xresources, s.xdefaults, s.xenvironment, s.host].into_iter().any(is_long))
    }),
    ("a long property of another format", |s, a, c, b| long_first(s, a, c, b, s.property.len() > TEXT_BYTES)),
    ("a long text that could not be read", |s, a, c, b| {
        let is_long = |text: Text| text.read == 0 && text.bytes.len() > TEXT_BYTES;
        long_first(s, a, c, b, [s.xresources, s.xdefaults, s.xenvironment, s.host].into_iter().any(is_long))
    }),
    ("a long second text is cut", |s, a, c, b| {
        let [first, second] = used(s);
        read_default_word(&two(first, &second[..second.len().min(TEXT_BYTES)]), a, c, b)
    }),
    ("texts that run into each other", |s, a, c, b| match used(s) {
        texts if texts.iter().any(|text| text.len() > TEXT_BYTES) => read_default_word(s, a, c, b),
        texts if texts.concat().len() > TEXT_BYTES => read_default_word(s, a, c, b),
        texts => read_word(&texts.concat(), a, c, b),
    }),
    ("limits begun anew with the second text", |s, a, c, b| match read_default_word(s, a, c, b) {
        4 | 6 | 7 => on_accepted(read_word(used(s)[0], a, c, b), |_| read_word(used(s)[1], a, c, b)),
        word => word,
    }),
    ("opens of the second text alone", |s, a, c, b| {
        let second = read_word(used(s)[1], a, c, b);
        on_accepted(read_default_word(s, a, c, b), |word| word & 0xFFFF_FFFF | second >> 32 << 32)
    }),
    ("a refusal that leaves the first text's entries", |s, a, c, b| {
        let word = read_default_word(s, a, c, b);
        if (4..=7).contains(&word) {
            read_word(used(s)[0], a, c, b);
        }
        word
    }),
    ("a bad archive before a long text of a start-up", |s, a, c, b| match read_default_word(s, a, c, b) {
        2 => read_word(b"", a, &mut c.to_vec(), &mut b.to_vec()).max(2),
        word => word,
    }),
    ("a byte of a start-up's store is another", |s, a, c, b| after(s, a, c, b, |c, b| b[usize::from(c[1]) - 1] ^= 1)),
    ("an unused byte of a start-up is not zero", |s, a, c, b| after(s, a, c, b, |_, b| b[BODIES_BYTES - 1] |= 1)),
    ("a word behind a start-up's contents is zeroed", |s, a, c, b| {
        after(s, a, c, b, |c, _| c.iter_mut().skip(CONTENTS_WORDS).for_each(|w| *w = 0))
    }),
    ("something in the highest bits of a start-up", |s, a, c, b| {
        on_accepted(read_default_word(s, a, c, b), |word| word | 1 << 48)
    }),
    ("a byte of the host's text is changed", |s, a, c, b| {
        let word = read_default_word(s, a, c, b);
        if !s.host.bytes.is_empty() {
            let at = s.host.bytes.as_ptr().cast_mut();
            // Writes where it may not: the memory behind the texts of a comparison is its own, and writable.
            unsafe { at.write_volatile(at.read_volatile() ^ 1) }
        }
        word
    }),
];

/// Faults that the fences around lent memory stop.
const TRESPASSES: [(&str, ReadDefault); 3] = [
    ("reads past the property", |s, a, c, b| past(s.property, || read_default_word(s, a, c, b))),
    ("reads past .Xdefaults", |s, a, c, b| past(s.xdefaults.bytes, || read_default_word(s, a, c, b))),
    ("reads before the host's text", |s, a, c, b| peek(s.host.bytes.as_ptr().wrapping_sub(1), || read_default_word(s, a, c, b))),
];

/// Faults that the Rust must see with no model beside it.
const SEEN_BY_THE_RUST: [&str; 13] = [
    "the host's text although XENVIRONMENT is set",
    "XENVIRONMENT's text although it is not set",
    ".Xdefaults where .Xresources is empty",
    ".Xdefaults before .Xresources",
    "an empty property is taken",
    "the format is not looked at",
    "a text that could not be read is read",
    "the first text is left out",
    "the second text is left out",
    "the second text comes first",
    "texts that run into each other",
    "opens of the second text alone",
    "a byte of a start-up's store is another",
];

/// Holds one fault to the comparison with the model, or with the Rust alone, or none if there is no such fault.
pub fn one(label: &str, with: &str, room: &str) -> Option<Result<(), String>> {
    let edit = EDITS.iter().find(|(of, _)| *of == label).map(|(_, edit)| Calls { edit: *edit, ..PORTS });
    let fault = FAULTS.iter().chain(&TRESPASSES).find(|(of, _)| *of == label);
    let fault = fault.map(|(_, read_default)| Calls { read_default: *read_default, ..PORTS });
    let calls = edit.or(fault)?;
    Some(if with == "both" { whole_comparison(calls) } else { comparison_with_the_rust(calls, room) })
}

/// Each fault in a process of its own.
pub fn all_seen(room: &str) -> Result<String, String> {
    let faults: Vec<&str> = EDITS.iter().map(|(label, _)| *label).chain(FAULTS.iter().map(|(label, _)| *label)).collect();
    each_seen(&faults, &TRESPASSES.map(|(label, _)| label), &SEEN_BY_THE_RUST, room)
}

fn on_texts<'a>(s: StartUp<'a>, change: fn(Text<'a>) -> Text<'a>) -> StartUp<'a> {
    let (xresources, xdefaults) = (change(s.xresources), change(s.xdefaults));
    StartUp { xresources, xdefaults, xenvironment: change(s.xenvironment), host: change(s.host), ..s }
}

/// The texts that are used, empty where there is none.
fn used<'a>(s: &StartUp<'a>) -> [&'a [u8]; 2] {
    let first = match (s.format, s.property) {
        (8, [_, ..]) => Text { read: 1, bytes: s.property },
        _ if s.xresources.read != 0 => s.xresources,
        _ => s.xdefaults,
    };
    let second = if s.xenvironment_set != 0 { s.xenvironment } else { s.host };
    [first, second].map(|text| if text.read != 0 { text.bytes } else { b"" })
}

fn two<'a>(first: &'a [u8], second: &'a [u8]) -> StartUp<'a> {
    StartUp { xresources: Text { read: 1, bytes: first }, host: Text { read: 1, bytes: second }, ..StartUp::default() }
}

/// 2 for a long text, whether it is used or not, if the buffers are long enough.
fn long_first(s: &StartUp, a: &[u8], c: &mut [u16], b: &mut [u8], is_long: bool) -> u64 {
    if is_long && c.len() >= CONTENTS_WORDS && b.len() >= BODIES_BYTES {
        2
    } else {
        read_default_word(s, a, c, b)
    }
}

fn on_accepted(word: u64, change: impl FnOnce(u64) -> u64) -> u64 {
    if word & 0xFFFF == 0 {
        change(word)
    } else {
        word
    }
}

/// The port, and then something done to the buffers if it has an entry.
fn after(s: &StartUp, a: &[u8], c: &mut [u16], b: &mut [u8], change: impl Fn(&mut [u16], &mut [u8])) -> u64 {
    let word = read_default_word(s, a, c, b);
    if word >> 16 & 0xFFFF != 0 {
        change(c, b);
    }
    word
}

fn past(text: &[u8], call: impl FnOnce() -> u64) -> u64 {
    peek(text.as_ptr().wrapping_add(text.len()), call)
}
