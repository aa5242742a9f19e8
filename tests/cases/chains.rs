//! Chains of a start-up: every combination of texts that could be read and could not, with random texts
//! and archives, and those near the limits.

use crate::archives::{self, put_include, Style, OF_FEW_VALUES, USUAL};
use crate::dotted::{DOTTED, DOTTED_OF_FEW_VALUES};
use crate::draw::Draw;
use crate::named_chains::{at_limits, named};
use crate::readings::{Extent, See, Seen};
use crate::struck::{and_another, each_file, Strike};
use crate::{crowded, readings, struck, texts};
use model::startup::StartUp;
use records::{Query, Source, Start};
use std::collections::BTreeSet;

/// Where a chain's own texts stand in a directory: .Xresources, .Xdefaults, the text named by XENVIRONMENT
/// and the host's. Archives that name one of these, and texts that include one, stay out of the run.
pub const OWN_FILES: [&str; 4] = [".Xresources", ".Xdefaults", ".Xenvironment", ".Xdefaults-desk"];

/// Whether one of these stands anywhere in the bytes, as it does wherever it is named.
pub fn names_own_file(bytes: &[u8]) -> bool {
    OWN_FILES.iter().any(|name| bytes.windows(name.len()).any(|piece| piece == name.as_bytes()))
}

#[derive(Clone, Copy, Debug, PartialEq, Eq, PartialOrd, Ord)]
pub enum Found {
    Unreadable,
    Empty,
    Text,
}

/// What a start-up has to choose from, without the texts themselves.
#[derive(Clone, Copy, Debug, PartialEq, Eq, PartialOrd, Ord)]
pub struct Combination {
    pub format: u8,
    pub has_property: bool,
    pub xresources: Found,
    pub xdefaults: Found,
    /// None if XENVIRONMENT is not set.
    pub xenvironment: Option<Found>,
    pub host: Found,
}

impl Combination {
    const FORMATS: [u8; 4] = [8, 16, 32, 0];
    const FOUND: [Found; 3] = [Found::Unreadable, Found::Empty, Found::Text];
    const NAMED: [Option<Found>; 4] = [None, Some(Found::Unreadable), Some(Found::Empty), Some(Found::Text)];
    pub const COUNT: usize = 4 * 2 * 3 * 3 * 4 * 3;

    /// The combinations in a row, begun anew after the last.
    pub fn nth(mut n: usize) -> Self {
        let mut digit = |base: usize| {
            let digit = n % base;
            n /= base;
            digit
        };
        Self {
            format: Self::FORMATS[digit(4)],
            has_property: digit(2) == 1,
            xresources: Self::FOUND[digit(3)],
            xdefaults: Self::FOUND[digit(3)],
            xenvironment: Self::NAMED[digit(4)],
            host: Self::FOUND[digit(3)],
        }
    }

    pub fn of(start_up: &StartUp) -> Self {
        let found = |text: &Option<Vec<u8>>| match text {
            None => Found::Unreadable,
            Some(text) if text.is_empty() => Found::Empty,
            Some(_) => Found::Text,
        };
        Self {
            format: start_up.format,
            has_property: !start_up.property.is_empty(),
            xresources: found(&start_up.xresources),
            xdefaults: found(&start_up.xdefaults),
            xenvironment: start_up.xenvironment_set.then(|| found(&start_up.xenvironment)),
            host: found(&start_up.host),
        }
    }

    /// A start-up of this combination: property, .Xresources, .Xdefaults, the named text and the host's, in this order, are
    /// taken from `text`, which gives no empty one. The named text is there even if XENVIRONMENT is not set.
    pub fn start_up(&self, mut text: impl FnMut() -> Vec<u8>) -> StartUp {
        let property = text();
        let mut read = |found: Found| match (found, text()) {
            (Found::Unreadable, _) => None,
            (Found::Empty, _) => Some(Vec::new()),
            (Found::Text, text) => Some(text),
        };
        StartUp {
            format: self.format,
            property: if self.has_property { property } else { Vec::new() },
            xresources: read(self.xresources),
            xdefaults: read(self.xdefaults),
            xenvironment_set: self.xenvironment.is_some(),
            xenvironment: read(self.xenvironment.unwrap_or(Found::Text)),
            host: read(self.host),
        }
    }
}

/// An error if one of the combinations is not among those that were met.
pub fn every_combination(met: &BTreeSet<Combination>) -> Result<(), String> {
    match (0..Combination::COUNT).map(Combination::nth).find(|of| !met.contains(of)) {
        Some(missing) => Err(format!("never met: {missing:?}")),
        None => Ok(()),
    }
}

/// Lines that only the end of their text ends, or that nothing ends.
const UNFINISHED: [&[u8]; 14] = [
    b"a:1\\",
    b"a:\\1",
    b"a:\\12",
    b"a:\\101",
    b"a:x",
    b"a:",
    b"a: \\\n",
    b"a",
    b"a.",
    b"*a ",
    b"!c",
    b"#",
    b"#include \"p\"",
    b"#include \"p",
];

/// A text that includes some of the files; one in three ends in an unfinished line.
fn text(draw: &mut Draw, names: &[Vec<u8>], query: &Query, style: Style) -> Vec<u8> {
    let mut text = (style.write)(draw, 2, query);
    for _ in 0..draw.below(3) {
        put_include(draw, &mut text, names, b"", style.name);
        text.extend((style.write)(draw, 2, query));
    }
    if draw.one_in(3) {
        if !text.is_empty() && !text.ends_with(b"\n") {
            text.push(b'\n');
        }
        text.extend(draw.pick(&UNFINISHED));
    }
    if text.is_empty() {
        text.push(b'\n');
    }
    text
}

/// A chain of this combination with an archive, and a query with which many of their entries align.
pub fn chain(draw: &mut Draw, combination: Combination) -> (Source, Query) {
    chain_of(draw, combination, USUAL)
}

fn chain_of(draw: &mut Draw, combination: Combination, style: Style) -> (Source, Query) {
    let query = texts::query(draw);
    let names = archives::names(draw);
    let start_up = combination.start_up(|| text(draw, &names, &query, style));
    (Source::chain(start_up, archives::archive(draw, &names, &query, style)), query)
}

/// Calls `see` with every combination in turn, so many rounds, and as often with one of those that have a text in both steps.
pub fn in_turn(extent: Extent, stream: &str, rounds: usize, mut see: impl FnMut(&mut Draw, Combination) -> Seen) -> Seen {
    let has_two = |of: &Combination| of.start_up(|| b"text".to_vec()).texts() == [b"text", b"text"];
    let of_two: Vec<Combination> = (0..Combination::COUNT).map(Combination::nth).filter(has_two).collect();
    let mut turn = 0;
    extent.draw(stream, rounds * Combination::COUNT, |draw| {
        turn += 1;
        see(draw, Combination::nth(turn - 1))?;
        see(draw, of_two[turn % of_two.len()])
    })
}

/// A source near the limits of a reading, its text cut in two at a line's end: a text of each step.
fn crowded_chain(draw: &mut Draw) -> Source {
    let source = crowded::source(draw);
    let Start::Text(text) = source.start else { return source };
    let ends: Vec<usize> = (0..text.len()).filter(|at| text[*at] == b'\n').collect();
    let cut = if ends.is_empty() { text.len() } else { ends[draw.below(ends.len())] + 1 };
    let (first, second) = text.split_at(cut);
    let mut start_up = StartUp { xenvironment_set: draw.one_in(2), ..StartUp::default() };
    match draw.below(3) {
        0 => (start_up.format, start_up.property) = (8, first.to_vec()),
        1 => start_up.xresources = Some(first.to_vec()),
        _ => start_up.xdefaults = Some(first.to_vec()),
    }
    if start_up.xenvironment_set {
        start_up.xenvironment = Some(second.to_vec());
    } else {
        start_up.host = Some(second.to_vec());
    }
    Source::chain(start_up, source.archive)
}

/// Families of readings of chains.
pub const FAMILIES: [(&str, readings::Family); 5] = [
    ("chains-by-name", by_name),
    ("chain-limits", limits),
    ("chains", random),
    ("dotted-chains", with_dots),
    ("chains-near-limits", near_the_limits),
];

fn by_name(_: Extent, see: See) -> Seen {
    named().iter().try_for_each(|named| see(&named.source))
}

fn limits(_: Extent, see: See) -> Seen {
    at_limits().iter().try_for_each(|edge| see(&edge.source))
}

fn random(extent: Extent, see: See) -> Seen {
    in_turn(extent, "chains", 10, |draw, combination| see(&chain(draw, combination).0))
}

/// Chains whose includes all have dots.
fn with_dots(extent: Extent, see: See) -> Seen {
    extent.draw("chains with dots", 600, |draw| {
        let combination = Combination::nth(draw.below(Combination::COUNT));
        see(&chain_of(draw, combination, DOTTED).0)
    })
}

fn near_the_limits(extent: Extent, see: See) -> Seen {
    extent.draw("chains near the limits", 1_000, |draw| see(&crowded_chain(draw)))
}

/// Families of chains for the third term.
pub const STRIKES: [(&str, struck::Family); 3] =
    [("chains", random_struck), ("chains-of-few-values", few_values_struck), ("dotted-chains", struck_with_dots)];

fn random_struck(extent: Extent, strike: Strike) -> Seen {
    in_turn(extent, "third term of chains", 1, |draw, combination| {
        let (source, query) = chain(draw, combination);
        each_file(&source, &and_another(draw, query), strike)
    })
}

/// Entries that often carry the same bytes.
fn few_values_struck(extent: Extent, strike: Strike) -> Seen {
    in_turn(extent, "third term of chains with few values", 1, |draw, combination| {
        let (source, query) = chain_of(draw, combination, OF_FEW_VALUES);
        each_file(&source, &and_another(draw, query), strike)
    })
}

fn struck_with_dots(extent: Extent, strike: Strike) -> Seen {
    extent.draw("third term of chains with dots", 600, |draw| {
        let combination = Combination::nth(draw.below(Combination::COUNT));
        let (source, query) = chain_of(draw, combination, DOTTED_OF_FEW_VALUES);
        each_file(&source, &and_another(draw, query), strike)
    })
}
