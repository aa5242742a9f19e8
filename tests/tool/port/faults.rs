//! Shows that the comparison can fail: ports with a fault each, every one of which it must see. A
//! faulty port is the port with something done to what it takes or to what it leaves.

use crate::both::{Calls, Read, PORTS};
use crate::tests::{comparison_with_the_rust, whole_comparison};
use crate::{
    board_faults, comparing_faults, lookup_faults, migrating_faults, path_faults, start_up_faults, walking_faults, window_faults,
    writing_faults,
};
use model::limits::{BODIES_BYTES, CONTENTS_WORDS, TEXT_BYTES};
use std::os::unix::process::ExitStatusExt;
use std::path::Path;
use std::process::{Command, ExitStatus};

const FAULTS: [(&str, Read); 22] = [
    ("the last byte of the store is another", last_byte),
    ("the first word is one more", |t, a, c, b| after(t, a, c, b, |c, _| c[0] += 1)),
    ("the second word is one more", |t, a, c, b| after(t, a, c, b, |c, _| c[1] += 1)),
    ("a key's length is one less", |t, a, c, b| after(t, a, c, b, |c, _| c[3] = c[3].saturating_sub(1))),
    ("an unused word is not zero", |t, a, c, b| after(t, a, c, b, |c, _| c[CONTENTS_WORDS - 1] |= 1)),
    ("an unused byte is not zero", |t, a, c, b| after(t, a, c, b, |_, b| b[BODIES_BYTES - 1] |= 1)),
    ("a word behind the contents is zeroed", behind_contents),
    ("a byte behind the bodies is zeroed", behind_bodies),
    ("opens are one more", |t, a, c, b| on_accepted(t, a, c, b, |word| word + (1 << 32))),
    ("entries are one less", |t, a, c, b| on_accepted(t, a, c, b, |word| word.saturating_sub(1 << 16))),
    ("something in the highest bits", |t, a, c, b| on_accepted(t, a, c, b, |word| word | 1 << 48)),
    ("a refusal with entries", refusal_with_entries),
    ("a refusal that leaves an entry", |t, a, c, b| on_refusal(t, a, c, b, 4..=7, |c| c[0] = 1)),
    ("a bad archive that clears the buffers", |t, a, c, b| on_refusal(t, a, c, b, 3..=3, |c| c.fill(0))),
    ("short buffers that are written", |t, a, c, b| on_refusal(t, a, c, b, 1..=1, |c| c.iter_mut().take(1).for_each(|w| *w = 0))),
    ("a bad archive before a long text", bad_archive_first),
    ("a tab before the colon", |t, a, c, b| port::read_word(&replaced(t, b"\t:", b":"), a, c, b)),
    ("an octal number held at 255", |t, a, c, b| port::read_word(&replaced(t, b"\\400", b"\\377"), a, c, b)),
    ("included entries at the end", includes_last),
    ("a byte after the archive", byte_after_the_archive),
    ("the text's last byte is not read", last_text_byte),
    ("a limit of 32,767 bytes", |t, a, c, b| if t.len() == TEXT_BYTES { 2 } else { port::read_word(t, a, c, b) }),
];

/// Faults that the fences around lent memory stop.
const TRESPASSES: [(&str, Read); 4] = [
    ("reads past the text", |t, a, c, b| peek(unsafe { t.as_ptr().add(t.len()) }, || port::read_word(t, a, c, b))),
    ("reads before the archive", |t, a, c, b| peek(unsafe { a.as_ptr().sub(1) }, || port::read_word(t, a, c, b))),
    ("writes past the contents", |t, a, c, b| {
        poke(unsafe { c.as_mut_ptr().add(c.len()).cast() });
        port::read_word(t, a, c, b)
    }),
    ("writes before the bodies", |t, a, c, b| {
        poke(unsafe { b.as_mut_ptr().sub(1) });
        port::read_word(t, a, c, b)
    }),
];

/// Faults that the Rust must see with no model beside it.
const SEEN_BY_THE_RUST: [&str; 7] = [
    "the last byte of the store is another",
    "the first word is one more",
    "a key's length is one less",
    "opens are one more",
    "entries are one less",
    "an octal number held at 255",
    "included entries at the end",
];

/// Holds one fault to the comparison with both, or with the Rust alone.
pub fn one(label: &str, with: &str, room: &str) -> Result<String, String> {
    if let Some(result) = lookup_faults::one(label, with, room) {
        return result.map(|()| "not seen".to_string());
    }
    if let Some(result) = window_faults::one(label, room) {
        return result.map(|()| "not seen".to_string());
    }
    if let Some(result) = comparing_faults::one(label, with) {
        return result.map(|()| "not seen".to_string());
    }
    if let Some(result) = writing_faults::one(label, with) {
        return result.map(|()| "not seen".to_string());
    }
    if let Some(result) = walking_faults::one(label, with) {
        return result.map(|()| "not seen".to_string());
    }
    if let Some(result) = migrating_faults::one(label) {
        return result.map(|()| "not seen".to_string());
    }
    if let Some(result) = board_faults::one(label) {
        return result.map(|()| "not seen".to_string());
    }
    if let Some(result) = path_faults::one(label, with, room) {
        return result.map(|()| "not seen".to_string());
    }
    if let Some(result) = start_up_faults::one(label, with, room) {
        return result.map(|()| "not seen".to_string());
    }
    let read = FAULTS.iter().chain(&TRESPASSES).find(|(of, _)| *of == label).ok_or("no such fault")?.1;
    let compare = if with == "both" { whole_comparison } else { comparison_with_the_rust };
    compare(Calls { read, ..PORTS }, room).map(|()| "not seen".to_string())
}

/// How a process ends that holds one fault to the comparison. It has a directory of its own, as it may
/// be stopped before it has cleared it.
pub fn status(label: &str, with: &str, room: &str) -> Result<ExitStatus, String> {
    let own = Path::new(room).join(format!("{label} {with}"));
    let run = || {
        std::fs::create_dir(&own)?;
        Command::new(std::env::current_exe()?).args(["fault", label, with]).arg(&own).output()
    };
    run().map(|output| output.status).map_err(|error| format!("{label}: {error}"))
}

/// Each of the faults must fail, each trespass be stopped by the machine, and some faults be seen by the
/// Rust alone too.
pub fn each_seen(faults: &[&str], trespasses: &[&str], by_the_rust: &[&str], room: &str) -> Result<String, String> {
    for label in faults {
        if status(label, "both", room)?.code() != Some(1) {
            return Err(format!("not seen: {label}"));
        }
    }
    for label in trespasses {
        if !matches!(status(label, "both", room)?.signal(), Some(7 | 11)) {
            return Err(format!("not stopped: {label}"));
        }
    }
    let by_the_rust = if cfg!(feature = "rust") { by_the_rust } else { &[] };
    for label in by_the_rust {
        if status(label, "rust", room)?.code() != Some(1) {
            return Err(format!("not seen by the Rust alone: {label}"));
        }
    }
    let (seen, stopped, alone) = (faults.len(), trespasses.len(), by_the_rust.len());
    Ok(format!("{seen} faults seen, {alone} of them by the Rust alone too; {stopped} trespasses stopped"))
}

/// Each fault in a process of its own.
pub fn all_seen(room: &str) -> Result<String, String> {
    each_seen(&FAULTS.map(|(label, _)| label), &TRESPASSES.map(|(label, _)| label), &SEEN_BY_THE_RUST, room)
}

/// The port, and then something done to the buffers if it has an entry.
fn after(t: &[u8], a: &[u8], c: &mut [u16], b: &mut [u8], change: impl Fn(&mut [u16], &mut [u8])) -> u64 {
    let word = port::read_word(t, a, c, b);
    if word >> 16 & 0xFFFF != 0 {
        change(c, b);
    }
    word
}

fn last_byte(t: &[u8], a: &[u8], c: &mut [u16], b: &mut [u8]) -> u64 {
    after(t, a, c, b, |c, b| b[usize::from(c[1]) - 1] ^= 1)
}

fn behind_contents(t: &[u8], a: &[u8], c: &mut [u16], b: &mut [u8]) -> u64 {
    after(t, a, c, b, |c, _| c.iter_mut().skip(CONTENTS_WORDS).for_each(|w| *w = 0))
}

fn behind_bodies(t: &[u8], a: &[u8], c: &mut [u16], b: &mut [u8]) -> u64 {
    after(t, a, c, b, |_, b| b.iter_mut().skip(BODIES_BYTES).for_each(|b| *b = 0))
}

fn on_accepted(t: &[u8], a: &[u8], c: &mut [u16], b: &mut [u8], change: impl Fn(u64) -> u64) -> u64 {
    let word = port::read_word(t, a, c, b);
    if word & 0xFFFF == 0 {
        change(word)
    } else {
        word
    }
}

fn on_refusal(
    t: &[u8],
    a: &[u8],
    c: &mut [u16],
    b: &mut [u8],
    numbers: std::ops::RangeInclusive<u64>,
    change: impl Fn(&mut [u16]),
) -> u64 {
    let word = port::read_word(t, a, c, b);
    if numbers.contains(&word) {
        change(c);
    }
    word
}

fn refusal_with_entries(t: &[u8], a: &[u8], c: &mut [u16], b: &mut [u8]) -> u64 {
    match port::read_word(t, a, c, b) {
        6 => 6 | 512 << 16,
        word => word,
    }
}

fn bad_archive_first(t: &[u8], a: &[u8], c: &mut [u16], b: &mut [u8]) -> u64 {
    match port::read_word(t, a, c, b) {
        2 => port::read_word(b"", a, &mut c.to_vec(), &mut b.to_vec()).max(2),
        word => word,
    }
}

/// The start of a text, long enough for it to be refused if the text is.
fn start(text: &[u8]) -> &[u8] {
    &text[..text.len().min(2 * TEXT_BYTES)]
}

fn replaced(text: &[u8], old: &[u8], new: &[u8]) -> Vec<u8> {
    let mut out = Vec::new();
    let mut rest = start(text);
    while let Some((first, more)) = rest.split_first() {
        match rest.strip_prefix(old) {
            Some(after) => {
                out.extend(new);
                rest = after;
            }
            None => {
                out.push(*first);
                rest = more;
            }
        }
    }
    out
}

fn includes_last(t: &[u8], a: &[u8], c: &mut [u16], b: &mut [u8]) -> u64 {
    let (includes, others): (Vec<&[u8]>, Vec<&[u8]>) =
        start(t).split(|b| *b == b'\n').partition(|line| line.starts_with(b"#include"));
    port::read_word(&[others, includes].concat().join(&b'\n'), a, c, b)
}

fn byte_after_the_archive(t: &[u8], a: &[u8], c: &mut [u16], b: &mut [u8]) -> u64 {
    match port::read_word(t, a, c, b) {
        3 if !a.is_empty() => port::read_word(t, &a[..a.len() - 1], c, b),
        word => word,
    }
}

fn last_text_byte(t: &[u8], a: &[u8], c: &mut [u16], b: &mut [u8]) -> u64 {
    port::read_word(if t.len() == TEXT_BYTES { &t[..TEXT_BYTES - 1] } else { t }, a, c, b)
}

pub fn peek(at: *const u8, call: impl FnOnce() -> u64) -> u64 {
    // Trespasses on purpose, onto a page that stops whoever does.
    std::hint::black_box(unsafe { at.read_volatile() });
    call()
}

pub fn poke(at: *mut u8) {
    unsafe { at.write_volatile(at.read_volatile()) }
}
