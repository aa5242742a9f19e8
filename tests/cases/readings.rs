//! Families of readings: all short texts and archives, random ones, and those at the limits.

use crate::damage::{damage_text, damaged};
use crate::draw::Draw;
use crate::limits::{edges, Edge};
use crate::named::{named, small};
use crate::words::{each_word, words};
use crate::{archives, crowded, dotted, realistic, texts};
use model::archive::{judge, lay_out, File};
use records::Source;

/// Which random sources are drawn, and how many times as many as usual.
#[derive(Clone, Copy)]
pub struct Extent {
    pub seed: u64,
    pub times: usize,
}

impl Extent {
    /// Calls `draw_one` so many times, with a stream of numbers of its own.
    pub(crate) fn draw(self, stream: &str, count: usize, mut draw_one: impl FnMut(&mut Draw) -> Seen) -> Seen {
        let mut draw = Draw::new(self.seed, stream);
        (0..count * self.times).try_for_each(|_| draw_one(&mut draw))
    }
}

/// An error ends a family.
pub(crate) type Seen = Result<(), String>;

/// Called with each source of a family.
pub type See<'a> = &'a mut dyn FnMut(&Source) -> Seen;

pub type Family = fn(Extent, See) -> Seen;

pub const FAMILIES: [(&str, Family); 20] = [
    ("texts", every_text),
    ("values", every_value),
    ("keys", every_key),
    ("bytes", every_pair_of_bytes),
    ("include-lines", every_include_line),
    ("include-names", every_include_name),
    ("dotted-by-name", dotted::by_name),
    ("dotted-names", dotted::every_name),
    ("admitted-dotted-names", dotted::every_admitted_name),
    ("dotted-ways", dotted::random_ways),
    ("archive-bytes", every_short_archive),
    ("archive-names", every_short_name),
    ("archive-damage", every_damage),
    ("limits", at_the_limits),
    ("near-limits", near_the_limits),
    ("random", random),
    ("archives", random_archives),
    ("realistic", like_real_files),
    ("damaged", damaged_copies),
    ("damaged-archives", damaged_archives),
];

/// Runs `see` on every word; the first error stands.
pub(crate) fn on_each_word(alphabet: &[u8], longest: usize, see: &mut dyn FnMut(&[u8]) -> Seen) -> Seen {
    let mut seen = Ok(());
    each_word(alphabet, longest, &mut |word| {
        if seen.is_ok() {
            seen = see(word);
        }
    });
    seen
}

/// All texts of up to six bytes that the rules tell apart.
fn every_text(_: Extent, see: See) -> Seen {
    on_each_word(b"a.*?:\\18n \t\n#!", 6, &mut |text| see(&Source::plain(text)))
}

fn every_value(_: Extent, see: See) -> Seen {
    on_each_word(b"\\078na \t\n", 6, &mut |value| see(&Source::plain(&[b"a:", value].concat())))
}

fn every_key(_: Extent, see: See) -> Seen {
    on_each_word(b"ab?.*", 7, &mut |key| see(&Source::plain(&[key, b":x"].concat())))
}

/// All pairs of bytes at the front of a line, in a key, in a value, after a backslash, as octal
/// digits, and in an include.
fn every_pair_of_bytes(_: Extent, see: See) -> Seen {
    let all: Vec<u8> = (0..=255).collect();
    let places: [(&[u8], &[u8]); 6] =
        [(b"", b":1"), (b"a", b"b:1"), (b"a:", b"z"), (b"a:\\", b"z"), (b"a:\\1", b"z"), (b"#include \"p", b"\"\nb:2")];
    on_each_word(&all, 2, &mut |pair| {
        places.iter().try_for_each(|(before, after)| see(&Source::with(&[before, pair, after].concat(), &[(b"p", b"c:3")])))
    })
}

/// All texts of up to six of these pieces, with a file to include.
fn every_include_line(_: Extent, see: See) -> Seen {
    const PIECES: [&[u8]; 8] = [b"#", b"include", b"\"", b"p", b" ", b"\t", b"\n", b"a:1"];
    on_each_word(&[0, 1, 2, 3, 4, 5, 6, 7], 6, &mut |word| {
        let text: Vec<u8> = word.iter().flat_map(|&piece| PIECES[piece as usize]).copied().collect();
        see(&Source::with(&text, &[(b"p", b"b:1")]))
    })
}

/// All short names that an include may look for, from the main text and from a file in a folder.
fn every_include_name(_: Extent, see: See) -> Seen {
    let files: [(&[u8], &[u8]); 5] = [(b"a", b"a:"), (b"b/a", b"b:"), (b"b/b/a", b"c:"), (b"a.b", b"d:"), (b"b/a.", b"e:")];
    on_each_word(b"ab/.", 5, &mut |name| {
        let include = [b"#include \"", name, b"\"\nz:"].concat();
        see(&Source::with(&include, &files))?;
        let mut files = files.to_vec();
        files.push((b"b/p", &include));
        see(&Source::with(b"#include \"b/p\"", &files))
    })
}

/// All archives of a few bytes: of no file, of one, and of two with nothing in them.
fn every_short_archive(_: Extent, see: See) -> Seen {
    let mut try_each = |alphabet: &[u8], longest: usize| {
        on_each_word(alphabet, longest, &mut |archive| see(&Source::text(b"#include \"a\"\nz:".to_vec(), archive.to_vec())))
    };
    try_each(b"\x00\x01a/.", 8)?;
    try_each(b"\x00\x01a", 12)
}

fn file(name: &[u8], body: &[u8]) -> File {
    File { name: name.to_vec(), body: body.to_vec() }
}

/// Archives whose names are any pair of bytes, any short word, and any two short words.
fn every_short_name(_: Extent, see: See) -> Seen {
    let all: Vec<u8> = (0..=255).collect();
    let mut named = |names: &[&[u8]]| {
        let include = [b"#include \"", names[names.len() - 1], b"\""].concat();
        see(&Source::text(include, lay_out(&names.iter().map(|name| file(name, b"a:")).collect::<Vec<_>>())))
    };
    on_each_word(&all, 2, &mut |name| named(&[name]))?;
    on_each_word(b"a./-", 6, &mut |name| named(&[name]))?;
    let short = words(b"ab/.-", 3);
    short.iter().try_for_each(|first| short.iter().try_for_each(|second| named(&[first, second])))
}

/// Good archives with one byte changed to any other, put in or taken out, two neighbours changed
/// about, or the end cut off.
fn every_damage(_: Extent, see: See) -> Seen {
    let goods = [
        lay_out(&[]),
        lay_out(&[file(b"p", b"b:1")]),
        lay_out(&[file(b"d/p", b"a:\n#include \"q\""), file(b"d/q", b"")]),
        lay_out(&[file(b"a", b"a:1"), file(b"a.b", b"#include \"a\""), file(b"b", b"")]),
    ];
    let text = b"#include \"p\"\n#include \"d/p\"\n#include \"a.b\"\nz:";
    let mut see = |archive: Vec<u8>| see(&Source::text(text.to_vec(), archive));
    for good in &goods {
        for at in 0..=good.len() {
            let (before, after) = good.split_at(at);
            see(before.to_vec())?;
            for b in 0..=255 {
                see([before, &[b], after].concat())?;
                if let Some((_, after)) = after.split_first() {
                    see([before, &[b], after].concat())?;
                }
            }
            if let Some((first, after)) = after.split_first() {
                see([before, after].concat())?;
                if let Some((second, after)) = after.split_first() {
                    see([before, &[*second, *first], after].concat())?;
                }
            }
        }
    }
    Ok(())
}

/// Files in a ring, as many as an archive holds: the depths end at 100.
fn ring() -> Source {
    let files: Vec<File> = (0..64)
        .map(|n| file(format!("f{n:02}").as_bytes(), format!("a{n}:{n}\n#include \"f{:02}\"\n", (n + 1) % 64).as_bytes()))
        .collect();
    Source::text(b"#include \"f00\"".to_vec(), lay_out(&files))
}

/// As many files, each included by the one before it, and the last includes none.
fn chain() -> Source {
    let link = |n: usize| if n < 63 { format!("#include \"f{:02}\"\na{n}:{n}", n + 1) } else { format!("a{n}:{n}") };
    let files: Vec<File> = (0..64).map(|n| file(format!("f{n:02}").as_bytes(), link(n).as_bytes())).collect();
    Source::text(b"#include \"f00\"".to_vec(), lay_out(&files))
}

/// The cases at the limits, with what each must give.
pub fn at_limits() -> Vec<Edge> {
    let edge = |label, source, expected| Edge { label, source, expected, queries: Vec::new() };
    let mut edges = edges();
    edges.push(edge("64 files in a ring", ring(), Ok((100, 100))));
    edges.push(edge("64 files in a chain", chain(), Ok((64, 64))));
    edges.extend(dotted::edges());
    edges
}

/// Those, and the cases chosen by hand.
fn at_the_limits(_: Extent, see: See) -> Seen {
    at_limits().iter().try_for_each(|edge| see(&edge.source))?;
    small().iter().chain(&named()).try_for_each(|case| see(&case.source))
}

fn near_the_limits(extent: Extent, see: See) -> Seen {
    extent.draw("near the limits", 3_000, |draw| see(&crowded::source(draw)))
}

fn random(extent: Extent, see: See) -> Seen {
    extent.draw("readings", 300_000, |draw| {
        let query = texts::query(draw);
        see(&Source::plain(&texts::text(draw, 8, &query)))
    })
}

fn random_archives(extent: Extent, see: See) -> Seen {
    extent.draw("readings with archives", 40_000, |draw| see(&archives::source(draw).0))
}

fn like_real_files(extent: Extent, see: See) -> Seen {
    extent.draw("realistic readings", 10_000, |draw| see(&realistic::source(draw, 60)))
}

/// Good sources with a few bytes of the main text or of a file damaged.
fn damaged_copies(extent: Extent, see: See) -> Seen {
    extent.draw("damaged readings", 60_000, |draw| {
        let mut source = match draw.below(4) {
            0 => archives::source(draw).0,
            1 => realistic::source(draw, 8),
            _ => {
                let query = texts::query(draw);
                Source::plain(&texts::text(draw, 4, &query))
            }
        };
        let mut files = judge(&source.archive).expect("a good archive").files;
        if !files.is_empty() && draw.one_in(2) {
            let which = draw.below(files.len());
            files[which].body = damaged(draw, &files[which].body);
            source.archive = lay_out(&files);
        } else {
            damage_text(draw, &mut source);
        }
        see(&source)
    })
}

/// Archives with a few of all their bytes damaged, most of them beyond use.
fn damaged_archives(extent: Extent, see: See) -> Seen {
    extent.draw("damaged archives", 60_000, |draw| {
        let mut source = archives::source(draw).0;
        source.archive = damaged(draw, &source.archive);
        see(&source)
    })
}
