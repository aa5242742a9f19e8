//! Tests of start-ups by name: a text lent as each of the texts of a start-up, flags and formats of every number, and
//! texts that are not looked at.

use crate::both::{shown, word_of, Both, Calls, Shape};
use crate::fenced::zero_bytes;
use crate::run::Run;
use crate::tests::Test;
use cases::archives;
use cases::chains::{chain, in_turn, Combination, FAMILIES};
use cases::draw::Draw;
use cases::named_chains::named;
use cases::readings::{at_limits, Extent};
use model::image;
use model::limits::{BODIES_BYTES, CONTENTS_WORDS, GREATEST_DEPTH, TEXT_BYTES};
use model::startup::StartUp;
use port::Text;
use records::{Source, Start};

pub const TESTS: [(&str, Test); 6] = [
    ("start-ups by name", by_name),
    ("start-ups of one text", of_one_text),
    ("start-up in short buffers", short_buffers),
    ("long texts of a start-up", long_texts),
    ("flags and formats", flags_and_formats),
    ("texts of a start-up within the archive", texts_within_the_archive),
];

pub fn names() -> impl Iterator<Item = &'static str> {
    TESTS.iter().map(|(name, _)| *name)
}

/// The entries that are written beside each chain, key by key.
fn by_name(calls: Calls) -> Result<String, String> {
    let mut both = Both::new(calls);
    let all = named();
    for named in &all {
        let wrong = |why: String| format!("{}: {why}", named.label);
        let answer = both.compare(&named.source).map_err(wrong)?;
        let entries: Vec<(&[u8], &[u8])> = named.entries.iter().map(|(key, value)| (key.as_bytes(), value.as_bytes())).collect();
        if answer != Ok((entries.len(), named.opens)) || both.entries() != entries {
            return Err(wrong(format!("{}, and not as it is written there", shown(word_of(answer)))));
        }
    }
    Ok(format!("{} start-ups", all.len()))
}

/// A text lent as each of the texts of a start-up, with no other that is used: the others could not be read, or stand
/// back for it and are too long.
fn lent_as(text: &[u8]) -> [(&'static str, StartUp); 5] {
    let (text, long) = (|| Some(text.to_vec()), || Some(vec![b'\n'; TEXT_BYTES + 1]));
    let property = |format, text: Option<Vec<u8>>| StartUp { format, property: text.unwrap_or_default(), ..StartUp::default() };
    [
        ("the property", StartUp { xresources: long(), xdefaults: long(), ..property(8, text()) }),
        (".Xresources", StartUp { xresources: text(), xdefaults: long(), ..property(16, long()) }),
        (".Xdefaults", StartUp { xdefaults: text(), ..property(0, long()) }),
        ("XENVIRONMENT's", StartUp { xenvironment_set: true, xenvironment: text(), host: long(), ..property(32, long()) }),
        ("the host's", StartUp { xenvironment: long(), host: text(), ..property(7, long()) }),
    ]
}

/// Each case at the limits of a main text, lent as each of the texts. An empty text is none of a property, and the next
/// is used; the model is asked for that.
fn of_one_text(calls: Calls) -> Result<String, String> {
    let mut both = Both::new(calls);
    let mut count = 0;
    for edge in at_limits() {
        let Start::Text(text) = &edge.source.start else { continue };
        for (name, start_up) in lent_as(text) {
            let source = Source::chain(start_up, edge.source.archive.clone());
            let answer = both.compare(&source).map_err(|why| format!("{} as {name}: {why}", edge.label))?;
            if answer != edge.expected && !(text.is_empty() && name == "the property") {
                return Err(format!("{} as {name}: {answer:?}, and not {:?}", edge.label, edge.expected));
            }
            count += 1;
        }
    }
    Ok(format!("{count} start-ups"))
}

/// Buffers that are too short are told before anything else is looked at.
fn short_buffers(calls: Calls) -> Result<String, String> {
    let mut both = Both::new(calls);
    let good = StartUp { xdefaults: Some(b"a:1".to_vec()), host: Some(b"b:2".to_vec()), ..StartUp::default() };
    let long = StartUp { host: Some(vec![b'\n'; TEXT_BYTES + 1]), ..good.clone() };
    let sources = [Source::chain(good, vec![0, 0]), Source::chain(long, Vec::new())];
    let words = [0, 1, 2, 100, CONTENTS_WORDS - 1].map(|words| (words, BODIES_BYTES));
    let bytes = [0, 1, 2, 100, BODIES_BYTES - 1].map(|bytes| (CONTENTS_WORDS, bytes));
    let mut count = 0;
    for (words, bytes) in words.into_iter().chain(bytes).chain([(0, 0), (CONTENTS_WORDS - 1, BODIES_BYTES - 1)]) {
        for source in &sources {
            for at_end in [false, true] {
                let answer = both.compare_in(source, Shape { words, bytes, at_end })?;
                if answer != Err(1) {
                    return Err(format!("{words} words and {bytes} bytes: {answer:?}"));
                }
                count += 1;
            }
        }
    }
    Ok(format!("{count} start-ups refused by 1"))
}

/// Start-ups that use a long text, each with the word 2, and some that do not, with that of an entry.
fn with_a_long_text(bytes: &[u8]) -> Vec<(port::StartUp<'_>, u64)> {
    use port::StartUp;
    let long = Text { read: 1, bytes };
    let unread = Text { read: 0, bytes };
    let short = Text { read: 1, bytes: b"a:1" };
    let none = StartUp { property: bytes, xresources: unread, xdefaults: unread, ..StartUp::default() };
    let named = StartUp { xenvironment_set: 1, ..none };
    let used = [
        StartUp { format: 8, ..none },
        StartUp { xresources: long, host: short, ..none },
        StartUp { xdefaults: long, host: short, ..none },
        StartUp { xresources: short, xenvironment: long, host: short, ..named },
        StartUp { xresources: short, xenvironment: short, host: long, ..none },
    ];
    let unused = [
        StartUp { format: 8, property: b"a:1", xresources: long, xdefaults: long, host: long, ..named },
        StartUp { xresources: short, xdefaults: long, xenvironment: long, host: unread, ..none },
        StartUp { xdefaults: short, xenvironment: unread, host: long, ..named },
        StartUp { format: 16, xenvironment: long, host: short, ..none },
    ];
    used.map(|start_up| (start_up, 2)).into_iter().chain(unused.map(|start_up| (start_up, 1 << 16))).collect()
}

/// Texts of more bytes than they may have, up to lengths of over 32 bits: refused by 2 where they are used, before a bad
/// archive is, and not looked at elsewhere.
fn long_texts(calls: Calls) -> Result<String, String> {
    let few = vec![0; 100_000];
    let zeroes = zero_bytes((1 << 32) + 100_000).unwrap_or(&few);
    let lengths = [TEXT_BYTES + 1, TEXT_BYTES + 2, 65_536, 1 << 32, (1 << 32) + 2, (1 << 32) + TEXT_BYTES];
    let mut count = 0;
    for length in lengths.into_iter().filter(|length| *length <= zeroes.len()) {
        for (start_up, word) in with_a_long_text(&zeroes[..length]) {
            for (archive, word) in [(&[0, 0][..], word), (&[], word.min(3))] {
                let (mut contents, mut bodies) = (vec![7; CONTENTS_WORDS], vec![7; BODIES_BYTES]);
                let got = (calls.read_default)(&start_up, archive, &mut contents, &mut bodies);
                let is_same = contents.iter().all(|w| *w == 7) && bodies.iter().all(|b| *b == 7);
                if got != word || is_same != (word <= 3) {
                    return Err(format!("a text of {length} bytes: {}, and not {}", shown(got), shown(word)));
                }
                count += 1;
            }
        }
    }
    Ok(format!("{count} start-ups with texts of up to {} bytes", zeroes.len()))
}

/// A flag of every number says yes, but for 0, in each of its places, and a format of every number says no, but for 8.
fn flags_and_formats(calls: Calls) -> Result<String, String> {
    let (mut contents, mut bodies) = (vec![0; CONTENTS_WORDS], vec![0; BODIES_BYTES]);
    let mut entries = |start_up: &port::StartUp| {
        let word = (calls.read_default)(start_up, &[0, 0], &mut contents, &mut bodies);
        (word & 0xFFFF == 0).then(|| bodies[..2 * usize::from(contents[0])].to_vec())
    };
    let text = |read: u8, bytes| Text { read, bytes };
    for n in 0..=255 {
        let is = |yes: &'static [u8], no: &'static [u8]| Some(if n != 0 { yes } else { no }.to_vec());
        let all = port::StartUp {
            format: 0,
            property: b"p:",
            xresources: text(1, b"r:"),
            xdefaults: text(1, b"d:"),
            xenvironment_set: 1,
            xenvironment: text(1, b"x:"),
            host: text(1, b"h:"),
        };
        let no_first = port::StartUp { xresources: text(0, b"r:"), ..all };
        let cases = [
            (port::StartUp { format: n, ..all }, Some(if n == 8 { b".p.x" } else { b".r.x" }.to_vec())),
            (port::StartUp { xresources: text(n, b"r:"), ..all }, is(b".r.x", b".d.x")),
            (port::StartUp { xdefaults: text(n, b"d:"), ..no_first }, is(b".d.x", b".x")),
            (port::StartUp { xenvironment_set: n, ..all }, is(b".r.x", b".r.h")),
            (port::StartUp { xenvironment: text(n, b"x:"), ..all }, is(b".r.x", b".r")),
            (port::StartUp { xenvironment_set: 0, host: text(n, b"h:"), ..all }, is(b".r.h", b".r")),
        ];
        for (start_up, keys) in cases {
            let got = entries(&start_up);
            if got != keys {
                return Err(format!("{start_up:?}: keys {got:?}, and not {keys:?}"));
            }
        }
    }
    Ok("256 numbers in each of six places".to_string())
}

/// All are lent for reading, so the same bytes may be lent as all of them.
fn texts_within_the_archive(calls: Calls) -> Result<String, String> {
    let draw = &mut Draw::new(1, "texts within the archive");
    let rounds = 2;
    for turn in 0..rounds * Combination::COUNT {
        let archive = archives::source(draw).0.archive;
        let mut part = || archive[draw.below(archive.len())..].to_vec();
        let start_up = Combination::nth(turn).start_up(&mut part);
        let within = |text: &[u8]| &archive[archive.len() - text.len()..];
        let text =
            |text: &Option<Vec<u8>>| Text { read: text.is_some().into(), bytes: within(text.as_deref().unwrap_or(&archive)) };
        let lent = port::StartUp {
            format: start_up.format,
            property: within(&start_up.property),
            xresources: text(&start_up.xresources),
            xdefaults: text(&start_up.xdefaults),
            xenvironment_set: start_up.xenvironment_set.into(),
            xenvironment: text(&start_up.xenvironment),
            host: text(&start_up.host),
        };
        let mut ports = (vec![7; CONTENTS_WORDS], vec![7; BODIES_BYTES]);
        let mut models = ports.clone();
        let word = (calls.read_default)(&lent, &archive, &mut ports.0, &mut ports.1);
        let read = image::read(&mut models.0, &mut models.1, &start_up.texts(), &archive, GREATEST_DEPTH);
        let answer = read.map(|accepted| (accepted.entries, accepted.opens)).map_err(|refusal| refusal.number());
        if word != word_of(answer) || ports != models {
            return Err(format!("{start_up:?} within \"{}\"", archive.escape_ascii()));
        }
    }
    Ok(format!("{} start-ups", rounds * Combination::COUNT))
}

/// What a faulty reading of start-ups is held to.
pub fn whole_comparison(calls: Calls) -> Result<(), String> {
    TESTS.iter().try_for_each(|(_, test)| test(calls).map(drop))?;
    let mut both = Both::new(calls);
    FAMILIES.iter().try_for_each(|(_, family)| family(Extent { seed: 1, times: 1 }, &mut |source| both.compare(source).map(drop)))
}

/// The start-ups by name, and some of every combination, with no model.
pub fn comparison_with_the_rust(calls: Calls, room: &str) -> Result<(), String> {
    let mut run = Run::new(calls, room);
    let mut see = |source: &Source| run.see_by_the_rust(source).map(drop);
    named().iter().try_for_each(|named| see(&named.source))?;
    in_turn(Extent { seed: 1, times: 1 }, "start-ups beside the Rust", 1, |draw, combination| see(&chain(draw, combination).0))
}
