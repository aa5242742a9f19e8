//! Shows that the comparison of a board can fail: calls with a fault each, every one of which it must see.

use crate::board_tests::whole_comparison;
use crate::boards::{Calls, PORTS};
use crate::faults::{each_seen, peek, poke};
use model::board::{body_start, read_board, slot_start};
use model::limits::{BODIES_BYTES, CONTENTS_WORDS, ENTRIES, PACKS, QUERIES, QUERY_BYTES, ROW_WORDS};
use port::{
    board_answer_word, board_answers_word, board_arrive_word, board_leave_word, board_make_word, board_report_word,
    board_watch_word,
};
use std::borrow::Cow;

const FAULTS: [(&str, Calls); 36] = [
    ("a making that clears the words", Calls { make: |w, b| made(w, b, |w, _| w[2..].fill(0)), ..PORTS }),
    ("a making that clears the bytes", Calls { make: |w, b| made(w, b, |_, b| b.fill(0)), ..PORTS }),
    (
        "a making that asks for a board",
        Calls { make: |w, b| if w.starts_with(&[0, 0]) { board_make_word(w, b) } else { 8 }, ..PORTS },
    ),
    (
        "a making that keeps a board that is there",
        Calls { make: |w, b| if read_board(w, b).is_ok() { 0 } else { board_make_word(w, b) }, ..PORTS },
    ),
    ("a pack arrives first", Calls { arrive: first, ..PORTS }),
    (
        "14 before 13",
        Calls { arrive: |w, b, n, c, s| if n == 0 && is_full(w) { 14 } else { board_arrive_word(w, b, n, c, s) }, ..PORTS },
    ),
    ("13 before 8", Calls { arrive: |w, b, n, c, s| if is_full(w) { 13 } else { board_arrive_word(w, b, n, c, s) }, ..PORTS }),
    ("9 before 13", Calls { watch: |w, b, n, c| if n.len() > QUERY_BYTES { 9 } else { board_watch_word(w, b, n, c) }, ..PORTS }),
    ("a refused arrival that leaves bytes", Calls { arrive: refused_bytes, ..PORTS }),
    ("a refused query that is counted", Calls { watch: counted, ..PORTS }),
    (
        "a malformed query is refused",
        Calls { watch: |w, b, n, c| if n == b".a" { 10 } else { board_watch_word(w, b, n, c) }, ..PORTS },
    ),
    ("an arrival copies all words", Calls { arrive: all_words, ..PORTS }),
    ("an arrival copies all bodies", Calls { arrive: all_bodies, ..PORTS }),
    (
        "an image in longer buffers is none",
        Calls { arrive: |w, b, n, c, s| board_arrive_word(w, b, n, if c.len() > CONTENTS_WORDS { &[] } else { c }, s), ..PORTS },
    ),
    ("bodies one byte short are taken", Calls { arrive: a_byte_more, ..PORTS }),
    ("a class before its name", Calls { watch: |w, b, n, c| board_watch_word(w, b, c, n), ..PORTS }),
    ("a leaving that reorders", Calls { leave: last_moves, ..PORTS }),
    ("a leaving that moves what is used", Calls { leave: used_moves, ..PORTS }),
    ("a leaving that clears the last slot", Calls { leave: cleared, ..PORTS }),
    ("a leaving of 0 is accepted", Calls { leave: |w, b, n| if n == 0 { 0 } else { board_leave_word(w, b, n) }, ..PORTS }),
    (
        "the place of the key",
        Calls { answer: |w, b, q, p| on_value(board_answer_word(w, b, q, p), |word| word - (2 << 16)), ..PORTS },
    ),
    (
        "a place in the bytes of the board",
        Calls { answer: |w, b, q, p| placed_on(w, b, q, p, |slot, _| body_start(slot)), ..PORTS },
    ),
    (
        "a place behind the packs before",
        Calls { answer: |w, b, q, p| placed_on(w, b, q, p, |slot, w| (0..slot).map(|before| used(w, before)).sum()), ..PORTS },
    ),
    (
        "a place of 15 bits",
        Calls { answer: |w, b, q, p| on_value(board_answer_word(w, b, q, p), |word| word & !(1 << 31)), ..PORTS },
    ),
    ("a joined list cut at 512 entries", Calls { answer: |w, b, q, p| board_answer_word(&cut_at_512(w, b), b, q, p), ..PORTS }),
    ("none changes the pack's number", Calls { answer: none_zeroes, ..PORTS }),
    (
        "a number with no query is refused",
        Calls { answer: |w, b, q, p| if usize::from(q) >= QUERIES { 14 } else { board_answer_word(w, b, q, p) }, ..PORTS },
    ),
    (
        "all answers, the first left out",
        Calls { answers: |w, b, a, p| changed_if(|k| k == 0, w, b, a, p, |a, _| a[0] = 0), ..PORTS },
    ),
    (
        "all answers, the last left out",
        Calls { answers: |w, b, a, p| changed_if(|k| k == 0, w, b, a, p, |a, _| a[QUERIES - 1] = 0), ..PORTS },
    ),
    (
        "all answers, the packs one place on",
        Calls { answers: |w, b, a, p| changed_if(|k| k == 0, w, b, a, p, |_, p| p.rotate_right(1)), ..PORTS },
    ),
    ("all answers, with none a pack's number", Calls { answers: nones_zero, ..PORTS }),
    (
        "all answers, written though refused",
        Calls { answers: |w, b, a, p| changed_if(|k| k != 0, w, b, a, p, |a, _| a.fill(65_535)), ..PORTS },
    ),
    ("all answers, always 32 of them", Calls { answers: always_32, ..PORTS }),
    ("a report of all that the pack answers", Calls { report: all_its_own, ..PORTS }),
    (
        "a report of a joined list cut at 512 entries",
        Calls { report: |w, b, n| board_report_word(&cut_at_512(w, b), b, n), ..PORTS },
    ),
    ("a report by the lowest bits", Calls { report: |w, b, n| on_value(board_report_word(w, b, n), |word| word >> 16), ..PORTS }),
];

/// Faults that the fences around lent memory stop.
const TRESPASSES: [(&str, Calls); 5] = [
    (
        "reads past the words of a board",
        Calls { answer: |w, b, q, p| peek(unsafe { w.as_ptr().add(w.len()).cast() }, || board_answer_word(w, b, q, p)), ..PORTS },
    ),
    (
        "reads before the bytes of a board",
        Calls { report: |w, b, n| peek(unsafe { b.as_ptr().sub(1) }, || board_report_word(w, b, n)), ..PORTS },
    ),
    (
        "writes past the bytes of a board",
        Calls {
            make: |w, b| {
                poke(unsafe { b.as_mut_ptr().add(b.len()) });
                board_make_word(w, b)
            },
            ..PORTS
        },
    ),
    (
        "writes past the pack numbers of all answers",
        Calls {
            answers: |w, b, a, p| {
                poke(unsafe { p.as_mut_ptr().add(QUERIES).cast() });
                board_answers_word(w, b, a, p)
            },
            ..PORTS
        },
    ),
    (
        "reads past an arriving image",
        Calls { arrive: |w, b, n, c, s| peek(unsafe { s.as_ptr().add(s.len()) }, || board_arrive_word(w, b, n, c, s)), ..PORTS },
    ),
];

/// Holds one fault to the comparison, or none if there is no such fault.
pub fn one(label: &str) -> Option<Result<(), String>> {
    let (_, calls) = FAULTS.iter().chain(&TRESPASSES).find(|(of, _)| *of == label)?;
    Some(whole_comparison(*calls))
}

/// Each fault in a process of its own.
pub fn all_seen(room: &str) -> Result<String, String> {
    each_seen(&FAULTS.map(|(label, _)| label), &TRESPASSES.map(|(label, _)| label), &[], room)
}

fn is_full(w: &[u16]) -> bool {
    w.first() == Some(&(PACKS as u16))
}

fn made(w: &mut [u16], b: &mut [u8], change: impl Fn(&mut [u16], &mut [u8])) -> u64 {
    let word = board_make_word(w, b);
    if word == 0 {
        change(w, b);
    }
    word
}

fn on_value(word: u64, change: impl Fn(u64) -> u64) -> u64 {
    match word & 0xFFFF {
        0 => change(word),
        _ => word,
    }
}

/// The bytes of keys and values in a slot.
fn used(w: &[u16], slot: usize) -> usize {
    usize::from(w[slot_start(slot) + 2])
}

/// An answer with so much added to its place.
fn placed_on(w: &[u16], b: &[u8], q: u16, p: &mut u16, more: fn(usize, &[u16]) -> usize) -> u64 {
    on_value(board_answer_word(w, b, q, p), |word| {
        let slot = (0..PACKS).find(|slot| w[slot_start(*slot)] == *p).expect("a pack that is there");
        word + ((more(slot, w) as u64) << 16)
    })
}

/// The words of a board without the entries behind the first 512.
fn cut_at_512<'a>(w: &'a [u16], b: &[u8]) -> Cow<'a, [u16]> {
    let Ok(board) = read_board(w, b) else { return Cow::Borrowed(w) };
    let (mut cut, mut left) = (w.to_vec(), ENTRIES);
    for slot in 0..board.packs.len() {
        let contents = &mut cut[slot_start(slot) + 1..];
        let rows = left.min(usize::from(contents[0]));
        let end = contents[2..][..ROW_WORDS * rows].chunks(ROW_WORDS).last().map_or(0, |row| row[0] + row[1] + row[2]);
        contents[..2].copy_from_slice(&[rows as u16, end]);
        left -= rows;
    }
    Cow::Owned(cut)
}

/// The slots exchanged after an arrival, so that the new pack is the first.
fn first(w: &mut [u16], b: &mut [u8], n: u16, c: &[u16], s: &[u8]) -> u64 {
    let word = board_arrive_word(w, b, n, c, s);
    if word == 0 && w[0] > 1 {
        let last = usize::from(w[0]) - 1;
        w[slot_start(0)..slot_start(last + 1)].rotate_right(slot_start(1) - slot_start(0));
        b[body_start(0)..body_start(last + 1)].rotate_right(BODIES_BYTES);
    }
    word
}

fn refused_bytes(w: &mut [u16], b: &mut [u8], n: u16, c: &[u16], s: &[u8]) -> u64 {
    let word = board_arrive_word(w, b, n, c, s);
    if word == 14 && usize::from(w[0]) < PACKS {
        b[body_start(usize::from(w[0]))] ^= 1;
    }
    word
}

fn counted(w: &mut [u16], b: &mut [u8], n: &[u8], c: &[u8]) -> u64 {
    let word = board_watch_word(w, b, n, c);
    if word == 9 {
        w[1] += 1;
    }
    word
}

fn all_words(w: &mut [u16], b: &mut [u8], n: u16, c: &[u16], s: &[u8]) -> u64 {
    let word = board_arrive_word(w, b, n, c, s);
    if word == 0 {
        let start = slot_start(usize::from(w[0]) - 1) + 1;
        w[start..start + CONTENTS_WORDS].copy_from_slice(&c[..CONTENTS_WORDS]);
    }
    word
}

fn all_bodies(w: &mut [u16], b: &mut [u8], n: u16, c: &[u16], s: &[u8]) -> u64 {
    let word = board_arrive_word(w, b, n, c, s);
    if word == 0 {
        b[body_start(usize::from(w[0]) - 1)..][..BODIES_BYTES].copy_from_slice(&s[..BODIES_BYTES]);
    }
    word
}

fn a_byte_more(w: &mut [u16], b: &mut [u8], n: u16, c: &[u16], s: &[u8]) -> u64 {
    if s.len() == BODIES_BYTES - 1 {
        return board_arrive_word(w, b, n, c, &[s, &[0]].concat());
    }
    board_arrive_word(w, b, n, c, s)
}

/// What stands behind an image in its slot stays where it was.
fn used_moves(w: &mut [u16], b: &mut [u8], n: u16) -> u64 {
    let (words, bytes) = (w.to_vec(), b.to_vec());
    let word = board_leave_word(w, b, n);
    if word != 0 {
        return word;
    }
    for slot in 0..usize::from(w[0]) {
        let rest = slot_start(slot) + 3 + ROW_WORDS * usize::from(w[slot_start(slot) + 1])..slot_start(slot + 1);
        w[rest.clone()].copy_from_slice(&words[rest]);
        let rest = body_start(slot) + used(w, slot)..body_start(slot + 1);
        b[rest.clone()].copy_from_slice(&bytes[rest]);
    }
    word
}

/// The last pack takes the place of the one that leaves.
fn last_moves(w: &mut [u16], b: &mut [u8], n: u16) -> u64 {
    let slot = (0..PACKS).find(|slot| w.len() >= slot_start(PACKS) && w[slot_start(*slot)] == n);
    let word = board_leave_word(w, b, n);
    if let (0, Some(slot)) = (word, slot) {
        let left = usize::from(w[0]);
        if slot + 1 < left {
            w[slot_start(slot)..slot_start(left)].rotate_right(slot_start(1) - slot_start(0));
            b[body_start(slot)..body_start(left)].rotate_right(BODIES_BYTES);
        }
    }
    word
}

fn cleared(w: &mut [u16], b: &mut [u8], n: u16) -> u64 {
    let word = board_leave_word(w, b, n);
    if word == 0 {
        w[slot_start(usize::from(w[0]))] = 0;
    }
    word
}

fn none_zeroes(w: &[u16], b: &[u8], q: u16, p: &mut u16) -> u64 {
    let word = board_answer_word(w, b, q, p);
    if word == 65_535 {
        *p = 0;
    }
    word
}

/// All answers, with their arrays changed where the status is such.
fn changed_if(
    such: fn(u64) -> bool,
    w: &[u16],
    b: &[u8],
    a: &mut [u64; QUERIES],
    p: &mut [u16; QUERIES],
    change: fn(&mut [u64; QUERIES], &mut [u16; QUERIES]),
) -> u64 {
    let word = board_answers_word(w, b, a, p);
    if such(word & 0xFFFF) {
        change(a, p);
    }
    word
}

fn always_32(w: &[u16], b: &[u8], a: &mut [u64; QUERIES], p: &mut [u16; QUERIES]) -> u64 {
    match board_answers_word(w, b, a, p) {
        word if word & 0xFFFF == 0 => 32 << 16,
        word => word,
    }
}

fn nones_zero(w: &[u16], b: &[u8], a: &mut [u64; QUERIES], p: &mut [u16; QUERIES]) -> u64 {
    let word = board_answers_word(w, b, a, p);
    let nones = p.iter_mut().zip(a).filter(|(_, answer)| **answer == 65_535);
    nones.for_each(|(pack, _)| *pack = 0);
    word
}

/// A bit for each query that finds an entry of the pack, whatever is found without it.
fn all_its_own(w: &[u16], b: &[u8], n: u16) -> u64 {
    let word = board_report_word(w, b, n);
    if word & 0xFFFF != 0 {
        return word;
    }
    (0..QUERIES as u16).fold(0, |bits, query| {
        let mut pack = 0;
        let found = board_answer_word(w, b, query, &mut pack) & 0xFFFF == 0 && pack == n;
        bits | u64::from(found) << (32 + query)
    })
}
