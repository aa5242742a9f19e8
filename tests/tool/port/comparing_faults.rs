//! Shows that the comparison of the comparing call can fail: calls with a fault each, every one of
//! which it must see.

use crate::comparing::{Call, Calls, NO_FILE, PORTS};
use crate::comparing_tests::{comparison_of_start_ups, whole_comparison};
use crate::faults::{each_seen, poke, status};
use crate::lending::Edit;
use crate::start_up_faults::EDITS;
use port::{compare_without_word, Lent};

type Fault = fn(Call, usize, Lent) -> u64;

const FAULTS: [(&str, Fault); 9] = [
    ("both answers changed about", |call, f, lent| after(call, f, lent, |lent| std::mem::swap(lent.with_it, lent.without))),
    ("the second answer is the first", |call, f, lent| after(call, f, lent, |lent| *lent.without = *lent.with_it)),
    ("no answer without the file", |call, f, lent| after(call, f, lent, |lent| *lent.without = 65_535)),
    ("the first file is struck off always", |call, _, lent| call(0, lent)),
    ("a byte of the first image is changed", |call, f, lent| after(call, f, lent, |lent| lent.bodies[0] ^= 1)),
    ("a word of the second image is changed", |call, f, lent| after(call, f, lent, |lent| lent.contents_without[1] ^= 1)),
    ("a byte of the struck archive is changed", |call, f, lent| after(call, f, lent, |lent| lent.struck[0] ^= 1)),
    ("no such file gives two answers", |call, f, lent| match call(f, lent) {
        NO_FILE => 0,
        word => word,
    }),
    ("a refused query gives two answers", |call, f, lent| match call(f, lent) {
        9 | 10 => 0,
        word => word,
    }),
];

/// Faults of the depth of a comparison of main texts.
const DEPTH_FAULTS: [(&str, Calls); 5] = [
    ("a comparison's depth held at 100", Calls { depth: |depth| depth.min(100), ..PORTS }),
    ("a comparison's depth of 32 bits", Calls { depth: |depth| depth as u32 as u64, ..PORTS }),
    ("a comparison at depth 0 that opens", Calls { depth: |depth| depth.max(1), ..PORTS }),
    ("a comparison at 100 where none is given", Calls { plain: |t, a, f, n, c, l| compare_without_word(t, a, 100, f, n, c, l), ..PORTS }),
    ("a comparison refused by 15 that clears", Calls { around: cleared, ..PORTS }),
];

fn cleared(call: Call, file: usize, lent: Lent) -> u64 {
    let Lent { struck, contents, bodies, contents_without, bodies_without, with_it, without } = lent;
    let again = Lent { struck, contents: &mut *contents, bodies, contents_without, bodies_without, with_it, without };
    let word = call(file, again);
    if word == 15 {
        contents.fill(0);
    }
    word
}

/// A fault that the fences around lent memory stop.
const TRESPASSES: [(&str, Fault); 1] = [("writes past the struck archive", |call, f, lent| {
    poke(lent.struck.as_mut_ptr().wrapping_add(lent.struck.len()));
    call(f, lent)
})];

/// The call, and then something done to what it leaves if it answers.
fn after(call: Call, f: usize, mut lent: Lent, change: impl Fn(&mut Lent)) -> u64 {
    let again = Lent {
        struck: &mut *lent.struck,
        contents: &mut *lent.contents,
        bodies: &mut *lent.bodies,
        contents_without: &mut *lent.contents_without,
        bodies_without: &mut *lent.bodies_without,
        with_it: &mut *lent.with_it,
        without: &mut *lent.without,
    };
    let word = call(f, again);
    if word == 0 {
        change(&mut lent);
    }
    word
}

/// The word with which a fault is held to the comparison of start-ups alone.
pub const START_UPS: &str = "start-ups";

/// Holds one fault to the comparison of main texts or of start-ups, or none if there is no such fault.
pub fn one(label: &str, with: &str) -> Option<Result<(), String>> {
    if let Some((_, calls)) = DEPTH_FAULTS.iter().find(|(of, _)| *of == label) {
        return Some(whole_comparison(*calls));
    }
    let around =
        FAULTS.iter().chain(&TRESPASSES).find(|(of, _)| *of == label).map(|(_, around)| Calls { around: *around, ..PORTS });
    if with != START_UPS {
        return around.map(whole_comparison);
    }
    let edit = EDITS.iter().find(|(of, _)| *of == label).map(|(_, edit): &(&str, Edit)| Calls { edit: *edit, ..PORTS });
    around.or(edit).map(comparison_of_start_ups)
}

/// Each fault in a process of its own.
pub fn all_seen(room: &str) -> Result<String, String> {
    each_seen(&FAULTS.map(|(label, _)| label), &TRESPASSES.map(|(label, _)| label), &[], room)?;
    each_seen(&DEPTH_FAULTS.map(|(label, _)| label), &[], &[], room)?;
    let edits = EDITS.map(|(label, _)| label);
    for label in FAULTS.map(|(label, _)| label).iter().chain(&edits) {
        if status(label, START_UPS, room)?.code() != Some(1) {
            return Err(format!("not seen in start-ups: {label}"));
        }
    }
    let (faults, depths, edits, trespasses) = (FAULTS.len(), DEPTH_FAULTS.len(), edits.len(), TRESPASSES.len());
    Ok(format!(
        "{faults} faults seen in main texts and in start-ups, {depths} in main texts alone, {edits} in start-ups alone; \
         {trespasses} trespass stopped"
    ))
}
