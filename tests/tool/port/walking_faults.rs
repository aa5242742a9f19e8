//! Shows that the comparison of walks and additions can fail: calls with a fault each, every one of which it must see.

use crate::faults::{each_seen, peek, poke};
use crate::walking::{Add, Calls, Start, Step, PORTS};
use crate::walking_tests::{comparison_with_the_rust, whole_comparison};
use model::limits::{BODIES_BYTES, CONTENTS_WORDS, ENTRIES, ROW_WORDS, TEXT_BYTES};
use port::{add_word, get_bytes_word, walk_start_word, walk_step_word};

const END: u64 = 65_535;

const STARTS: [(&str, Start); 7] = [
    ("a walk begins where the one before ended", |c, b, n, k, next, count| {
        let before = *next;
        let word = walk_start_word(c, b, n, k, next, count);
        *next = before;
        word
    }),
    ("a walk's count is the most entries", |c, b, n, k, next, count| {
        let word = walk_start_word(c, b, n, k, next, count);
        *count = if word == 0 { ENTRIES as u16 } else { *count };
        word
    }),
    ("a walk's count is one less", |c, b, n, k, next, count| {
        let word = walk_start_word(c, b, n, k, next, count);
        *count = if word == 0 { count.saturating_sub(1) } else { *count };
        word
    }),
    ("a refused start sets the next number", |c, b, n, k, next, count| {
        let word = walk_start_word(c, b, n, k, next, count);
        *next = 0;
        word
    }),
    ("a refused start sets the count", |c, b, n, k, next, count| {
        let word = walk_start_word(c, b, n, k, next, count);
        *count = if word == 9 { 0 } else { *count };
        word
    }),
    ("a malformed query begins no walk", |c, b, n, k, next, count| match n.first() {
        Some(b'.') => END,
        _ => walk_start_word(c, b, n, k, next, count),
    }),
    ("a start judges no query", |c, b, _, _, next, count| walk_start_word(c, b, b"", b"", next, count)),
];

const STEPS: [(&str, Step); 14] = [
    ("the image's count only", |c, b, n, k, next, _| walk_step_word(c, b, n, k, next, u16::MAX)),
    ("the start's count only", past_the_images_count),
    ("the next number moved at the end", |c, b, n, k, next, count| {
        let word = walk_step_word(c, b, n, k, next, count);
        *next = if word == END { (*next).max(count) } else { *next };
        word
    }),
    ("the next number begun anew at the end", |c, b, n, k, next, count| {
        let word = walk_step_word(c, b, n, k, next, count);
        *next = if word == END { 0 } else { *next };
        word
    }),
    ("the same entry twice", |c, b, n, k, next, count| {
        let word = walk_step_word(c, b, n, k, next, count);
        *next -= u16::from(word & 0xFFFF == 0);
        word
    }),
    ("an entry left out", |c, b, n, k, next, count| {
        let word = walk_step_word(c, b, n, k, next, count);
        *next += u16::from(word & 0xFFFF == 0);
        word
    }),
    ("the highest first", highest_first),
    ("the winner alone", |c, b, n, k, next, count| match get_bytes_word(c, b, n, k) & 0xFFFF {
        0 if *next > 0 => END,
        _ => walk_step_word(c, b, n, k, next, count),
    }),
    ("an entry that is not below the count", |c, b, n, k, next, count| walk_step_word(c, b, n, k, next, count.saturating_add(1))),
    ("a step from after the next number", |c, b, n, k, next, count| match *next {
        u16::MAX => END,
        from => {
            let mut after = from + 1;
            let word = walk_step_word(c, b, n, k, &mut after, count);
            *next = if word & 0xFFFF == 0 { after } else { from };
            word
        }
    }),
    ("next numbers of eight bits", |c, b, n, k, next, count| match *next {
        0..=255 => walk_step_word(c, b, n, k, next, count),
        from => walk_step_word(c, b, n, k, &mut (from & 255), count),
    }),
    ("a malformed query lists all", |c, b, n, k, next, count| match n.strip_prefix(b".") {
        Some(rest) => walk_step_word(c, b, rest, k, next, count),
        None => walk_step_word(c, b, n, k, next, count),
    }),
    ("10 before malformed", |c, b, n, k, next, count| match walk_step_word(c, b, n, k, next, count) {
        END if k.iter().filter(|b| **b == b'.').count() > 31 => 10,
        word => word,
    }),
    ("entry 0 is the end", |c, b, n, k, next, count| match walk_step_word(c, b, n, k, next, count) {
        0 => END,
        word => word,
    }),
];

const ADDITIONS: [(&str, Add); 29] = [
    ("12 after 5", |c, b, t| {
        let word = add_word(c, b, t);
        if word == 12 && t.split(|b| *b == b'\n').any(|line| line.iter().filter(|b| **b == b'.').count() == 16) {
            5
        } else {
            word
        }
    }),
    ("zeroes behind the entry's bytes", |c, b, t| on_added(c, b, t, |c, b, _| b[c[1] as usize..BODIES_BYTES].fill(0))),
    ("zeroes behind the entry's row", |c, b, t| {
        on_added(c, b, t, |c, _, number| c[2 + ROW_WORDS * (number + 1)..CONTENTS_WORDS].fill(0))
    }),
    ("bytes used read from the first word", |c, b, t| {
        let (count, used) = (c[0], c[1]);
        on_added(c, b, t, |c, _, number| c[2 + ROW_WORDS * number] = if count == 0 { used } else { count })
    }),
    ("a refusal that has written the key", |c, b, t| {
        let word = add_word(c, b, t);
        if word == 7 {
            let used = c[1] as usize;
            b[used..BODIES_BYTES].iter_mut().take(1).for_each(|b| *b ^= 1);
        }
        word
    }),
    ("a refusal that has written the row", |c, b, t| {
        let (word, count) = (add_word(c, b, t), c[0] as usize);
        if word == 7 && count < ENTRIES {
            c[2 + ROW_WORDS * count] ^= 1;
        }
        word
    }),
    ("a refusal that has raised the count", |c, b, t| {
        let word = add_word(c, b, t);
        c[0] += u16::from(word == 7);
        word
    }),
    ("12 leaves no entries", |c, b, t| {
        let word = add_word(c, b, t);
        c[0] = if word == 12 { 0 } else { c[0] };
        word
    }),
    ("the first of two entries is added", |c, b, t| match add_word(c, b, t) {
        12 => add_word(c, b, t.split_inclusive(|b| *b == b'\n').find(|line| line.contains(&b':')).unwrap_or(t)),
        word => word,
    }),
    ("an include counts as an entry", |c, b, t| if t.starts_with(b"#include \"") { 12 } else { add_word(c, b, t) }),
    ("a comment counts as an entry", |c, b, t| if t.starts_with(b"!") { 12 } else { add_word(c, b, t) }),
    ("a number one more", |c, b, t| on_number(add_word(c, b, t), |number| number + 1)),
    ("the count for the number", |c, b, t| {
        let word = add_word(c, b, t);
        on_number(word, |_| c[0].into())
    }),
    ("a number from bit 32 on", |c, b, t| on_number(add_word(c, b, t), |number| number << 16)),
    ("the count is not raised", |c, b, t| on_added(c, b, t, |c, _, number| c[0] = number as u16)),
    ("the bytes used are not raised", |c, b, t| on_added(c, b, t, |c, _, number| c[1] = c[2 + ROW_WORDS * number])),
    ("a line of the main text", |c, b, t| on_added(c, b, t, |c, _, number| c[5 + ROW_WORDS * number] = 0)),
    ("the lengths are swapped", |c, b, t| {
        on_added(c, b, t, |c, _, number| c.swap(3 + ROW_WORDS * number, 4 + ROW_WORDS * number))
    }),
    ("the last byte of the value is another", |c, b, t| on_added(c, b, t, |c, b, _| b[c[1] as usize - 1] ^= 1)),
    ("a word more is written", |c, b, t| {
        on_added(c, b, t, |c, _, number| c.iter_mut().skip(2 + ROW_WORDS * (number + 1)).take(1).for_each(|word| *word = 0))
    }),
    ("2 before 8", |c, b, t| if t.len() > TEXT_BYTES { 2 } else { add_word(c, b, t) }),
    ("12 before 2", |c, b, t| match add_word(c, b, t) {
        2 if t.len() < 65_536 && !t.contains(&b':') => 12,
        word => word,
    }),
    ("6 before 5", |c, b, t| match add_word(c, b, t) {
        5 if c[0] == ENTRIES as u16 => 6,
        word => word,
    }),
    ("7 before 6", |c, b, t| match add_word(c, b, t) {
        6 if c[1] == BODIES_BYTES as u16 => 7,
        word => word,
    }),
    ("a text of 32,768 bytes is long", |c, b, t| if t.len() == TEXT_BYTES { 2 } else { add_word(c, b, t) }),
    ("511 entries are the most", |c, b, t| if c.first() == Some(&511) && t.len() < 9 { 6 } else { add_word(c, b, t) }),
    ("32,767 bytes are the most", |c, b, t| {
        let (words, bytes) = (c.to_vec(), b.to_vec());
        let word = add_word(c, b, t);
        if word & 0xFFFF != 0 || c[1] < BODIES_BYTES as u16 {
            return word;
        }
        (c.copy_from_slice(&words), b.copy_from_slice(&bytes));
        7
    }),
    ("17 parts are added", |c, b, t| match add_word(c, b, t) {
        5 => add_word(c, b, &t[2..]),
        word => word,
    }),
    ("an escape is not undone", |c, b, t| add_word(c, b, &replaced(t, b"\\101", b"\\\\101"))),
];

/// Faults that the fences around lent memory stop.
const TRESPASSES: [(&str, Calls); 5] = [
    (
        "writes past the next number",
        Calls {
            step: |c, b, n, k, next, count| {
                poke((next as *mut u16).wrapping_add(1).cast());
                poke((next as *mut u16).wrapping_sub(1).cast());
                walk_step_word(c, b, n, k, next, count)
            },
            ..PORTS
        },
    ),
    (
        "writes past the count",
        Calls {
            start: |c, b, n, k, next, count| {
                poke((count as *mut u16).wrapping_add(1).cast());
                poke((count as *mut u16).wrapping_sub(1).cast());
                walk_start_word(c, b, n, k, next, count)
            },
            ..PORTS
        },
    ),
    (
        "reads past the name of a walk",
        Calls {
            step: |c, b, n, k, next, count| peek(n.as_ptr().wrapping_add(n.len()), || walk_step_word(c, b, n, k, next, count)),
            ..PORTS
        },
    ),
    (
        "reads past the text to add",
        Calls { add: |c, b, t| peek(t.as_ptr().wrapping_add(t.len()), || add_word(c, b, t)), ..PORTS },
    ),
    (
        "writes past the bodies of an addition",
        Calls {
            add: |c, b, t| {
                poke(b.as_mut_ptr().wrapping_add(b.len()));
                poke(b.as_mut_ptr().wrapping_sub(1));
                add_word(c, b, t)
            },
            ..PORTS
        },
    ),
];

/// Faults that the Rust must see with no model beside it.
const SEEN_BY_THE_RUST: [&str; 12] = [
    "a walk's count is one less",
    "the image's count only",
    "the same entry twice",
    "an entry left out",
    "the highest first",
    "the winner alone",
    "entry 0 is the end",
    "12 after 5",
    "the first of two entries is added",
    "a comment counts as an entry",
    "the last byte of the value is another",
    "17 parts are added",
];

fn all() -> Vec<(&'static str, Calls)> {
    let starts = STARTS.map(|(label, start)| (label, Calls { start, ..PORTS }));
    let steps = STEPS.map(|(label, step)| (label, Calls { step, ..PORTS }));
    let additions = ADDITIONS.map(|(label, add)| (label, Calls { add, ..PORTS }));
    starts.into_iter().chain(steps).chain(additions).collect()
}

/// Holds one fault to the comparison, or none if there is no such fault.
pub fn one(label: &str, with: &str) -> Option<Result<(), String>> {
    let (_, calls) = all().into_iter().chain(TRESPASSES).find(|(of, _)| *of == label)?;
    Some(if with == "both" { whole_comparison(calls) } else { comparison_with_the_rust(calls) })
}

/// Each fault in a process of its own.
pub fn all_seen(room: &str) -> Result<String, String> {
    let labels: Vec<&str> = all().iter().map(|(label, _)| *label).collect();
    each_seen(&labels, &TRESPASSES.map(|(label, _)| label), &SEEN_BY_THE_RUST, room)
}

/// A step that takes rows behind those of the image for entries, up to the walk's count.
fn past_the_images_count(c: &[u16], b: &[u8], n: &[u8], k: &[u8], next: &mut u16, count: u16) -> u64 {
    let mut longer = c.to_vec();
    let last = usize::from(count.min(ENTRIES as u16));
    if longer.len() >= CONTENTS_WORDS && last > usize::from(c[0]) && last > 0 {
        let row = &c[2 + ROW_WORDS * (last - 1)..][..ROW_WORDS];
        longer[0] = last as u16;
        longer[1] = row[0].wrapping_add(row[1]).wrapping_add(row[2]);
    }
    match walk_step_word(&longer, b, n, k, next, count) {
        8 => walk_step_word(c, b, n, k, next, count),
        word => word,
    }
}

/// A step that gives the last entry that aligns, and goes downwards.
fn highest_first(c: &[u16], b: &[u8], n: &[u8], k: &[u8], next: &mut u16, count: u16) -> u64 {
    let mut all = Vec::new();
    let mut at = *next;
    loop {
        let word = walk_step_word(c, b, n, k, &mut at, count);
        if word & 0xFFFF != 0 {
            break if all.is_empty() { word } else { all[all.len() - 1] };
        }
        *next = (*next).max((word >> 16) as u16 + 1);
        all.push(word);
    }
}

/// Something done to both buffers if an entry was added, with its number.
fn on_added(c: &mut [u16], b: &mut [u8], t: &[u8], change: impl Fn(&mut [u16], &mut [u8], usize)) -> u64 {
    let word = add_word(c, b, t);
    if word & 0xFFFF == 0 {
        change(c, b, (word >> 16) as usize);
    }
    word
}

fn on_number(word: u64, change: impl Fn(u64) -> u64) -> u64 {
    if word & 0xFFFF == 0 {
        change(word >> 16) << 16
    } else {
        word
    }
}

fn replaced(text: &[u8], old: &[u8], new: &[u8]) -> Vec<u8> {
    if text.len() > 65_536 {
        return vec![b'\n'; TEXT_BYTES + 1];
    }
    match text.windows(old.len()).position(|window| window == old) {
        Some(at) => [&text[..at], new, &text[at + old.len()..]].concat(),
        None => text.to_vec(),
    }
}
