//! Shows that the comparison of the migrating call can fail: calls with a fault each, every one of which it must see.

use crate::faults::{each_seen, peek, poke};
use crate::migrating::Migrate;
use crate::migrating_tests::whole_comparison;
use model::limits::{BODIES_BYTES, CONTENTS_WORDS, ROW_WORDS};
use port::migrate_word;

const FAULTS: [(&str, Migrate); 14] = [
    ("carried entries stand in the main text", |o, p, c, b| rows(o, p, c, b, |row| row[3] = 0)),
    ("carried entries stand in file 65,534", |o, p, c, b| rows(o, p, c, b, |row| row[3] = 65_534)),
    ("the carried values are one shorter", |o, p, c, b| rows(o, p, c, b, |row| row[2] = row[2].saturating_sub(1))),
    ("the last carried row is left out", |o, p, c, b| carried(o, p, c, b, |c, _| c[0] = c[0].saturating_sub(1))),
    ("a carried byte is another", |o, p, c, b| carried(o, p, c, b, |c, b| b[usize::from(c[1]).saturating_sub(1)] ^= 1)),
    ("a word past the carried rows", |o, p, c, b| carried(o, p, c, b, |c, _| c[CONTENTS_WORDS - 1] |= 1)),
    ("a byte past the carried bytes", |o, p, c, b| carried(o, p, c, b, |_, b| b[BODIES_BYTES - 1] |= 1)),
    ("words behind the new contents are zeroed", |o, p, c, b| carried(o, p, c, b, |c, _| c[CONTENTS_WORDS..].fill(0))),
    ("bytes behind the new bodies are zeroed", |o, p, c, b| carried(o, p, c, b, |_, b| b[BODIES_BYTES..].fill(0))),
    ("an open is told", |o, p, c, b| match migrate_word(o, p, c, b) {
        word if word & 0xFFFF == 0 => word | 1 << 32,
        word => word,
    }),
    ("1 before 8", |o, p, c, b| if c.len() < CONTENTS_WORDS { 1 } else { migrate_word(o, p, c, b) }),
    ("8 clears the new buffers", |o, p, c, b| refused(o, p, c, b, 8)),
    ("1 clears the new buffers", |o, p, c, b| refused(o, p, c, b, 1)),
    (
        "old contents must be as long as new ones",
        |o, p, c, b| {
            if o.len() < CONTENTS_WORDS {
                8
            } else {
                migrate_word(o, p, c, b)
            }
        },
    ),
];

/// Faults that the fences around lent memory stop.
const TRESPASSES: [(&str, Migrate); 3] = [
    ("reads past the old contents", |o, p, c, b| peek(unsafe { o.as_ptr().add(o.len()).cast() }, || migrate_word(o, p, c, b))),
    ("reads before the old bodies", |o, p, c, b| peek(unsafe { p.as_ptr().sub(1) }, || migrate_word(o, p, c, b))),
    ("writes past the new contents", |o, p, c, b| {
        poke(unsafe { c.as_mut_ptr().add(c.len()).cast() });
        migrate_word(o, p, c, b)
    }),
];

/// Holds one fault to the comparison, or none if there is no such fault.
pub fn one(label: &str) -> Option<Result<(), String>> {
    let (_, migrate) = FAULTS.iter().chain(&TRESPASSES).find(|(of, _)| *of == label)?;
    Some(whole_comparison(*migrate))
}

/// Each fault in a process of its own.
pub fn all_seen(room: &str) -> Result<String, String> {
    each_seen(&FAULTS.map(|(label, _)| label), &TRESPASSES.map(|(label, _)| label), &[], room)
}

/// Something done to the buffers of an accepted call.
fn carried(o: &[u16], p: &[u8], c: &mut [u16], b: &mut [u8], change: impl Fn(&mut [u16], &mut [u8])) -> u64 {
    let word = migrate_word(o, p, c, b);
    if word & 0xFFFF == 0 {
        change(c, b);
    }
    word
}

/// Something done to each row.
fn rows(o: &[u16], p: &[u8], c: &mut [u16], b: &mut [u8], change: impl Fn(&mut [u16])) -> u64 {
    carried(o, p, c, b, |c, _| {
        let count = usize::from(c[0]);
        c[2..].chunks_mut(ROW_WORDS).take(count).for_each(&change);
    })
}

fn refused(o: &[u16], p: &[u8], c: &mut [u16], b: &mut [u8], number: u64) -> u64 {
    let word = migrate_word(o, p, c, b);
    if word == number {
        c.fill(0);
        b.fill(0);
    }
    word
}
