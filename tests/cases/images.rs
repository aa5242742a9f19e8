//! Images to be written out, document 02 (iv): of short and random texts, of entries of any bytes, at the limits, and damaged.

use crate::draw::Draw;
use crate::readings::{on_each_word, Extent, Seen};
use crate::words::{keys, words};
use crate::{archives, crowded, realistic, texts};
use model::image;
use model::limits::{BODIES_BYTES, ENTRIES, KEY_PARTS, ROW_WORDS, TEXT_BYTES, WRITTEN_BYTES};
use records::Source;
use std::collections::BTreeSet;

/// A key as an image writes it, and a value.
pub type Entry = (Vec<u8>, Vec<u8>);

/// Two buffers that are just long enough. They may hold no image.
#[derive(Clone, Debug, PartialEq, Eq)]
pub struct Image {
    pub contents: Vec<u16>,
    pub bodies: Vec<u8>,
}

impl Image {
    /// The image of these entries, with zeroes behind them.
    pub fn of(entries: &[Entry]) -> Self {
        let (mut contents, mut bodies) = records::buffers();
        let mut used = 0;
        for (number, (key, value)) in entries.iter().enumerate() {
            let row = [used, key.len(), value.len(), 0].map(|n| n as u16);
            contents[2 + ROW_WORDS * number..][..ROW_WORDS].copy_from_slice(&row);
            for bytes in [key, value] {
                bodies[used..used + bytes.len()].copy_from_slice(bytes);
                used += bytes.len();
            }
        }
        contents[..2].copy_from_slice(&[entries.len() as u16, used as u16]);
        Self { contents, bodies }
    }

    /// The image that the model reads from a source; none if the reading is refused.
    pub fn read(source: &Source) -> Option<Self> {
        let (mut contents, mut bodies) = records::buffers();
        image::read(&mut contents, &mut bodies, &source.texts(), &source.archive, source.depth).ok()?;
        Some(Self { contents, bodies })
    }

    /// The entries, or none if this is no image.
    pub fn entries(&self) -> Option<Vec<Entry>> {
        image::judge(&self.contents, &self.bodies).map(|_| records::listed(&self.contents, &self.bodies))
    }
}

fn entry(key: &[u8], value: &[u8]) -> Entry {
    (key.to_vec(), value.to_vec())
}

/// The image of one entry with this value.
fn valued(value: &[u8]) -> Image {
    Image::of(&[entry(b".a", value)])
}

/// Called with each image of a family.
pub type See<'a> = &'a mut dyn FnMut(&Image) -> Seen;

pub type Family = fn(Extent, See) -> Seen;

pub const FAMILIES: [(&str, Family); 13] = [
    ("limits", at_the_limits),
    ("values", every_value),
    ("pairs", every_pair),
    ("bytes", every_two_bytes),
    ("places", every_place),
    ("keys", every_key),
    ("texts", every_text),
    ("entries", random),
    ("random", of_random_texts),
    ("archives", with_archives),
    ("realistic", like_real_files),
    ("near-limits", near_the_limits),
    ("damaged", damaged),
];

pub fn family(name: &str) -> Option<Family> {
    FAMILIES.iter().find(|(of, _)| *of == name).map(|(_, family)| *family)
}

/// All values of up to four bytes, five in a longer run, that the rule tells apart or that mean something after a backslash.
fn every_value(extent: Extent, see: See) -> Seen {
    let longest = if extent.times > 1 { 5 } else { 4 };
    on_each_word(b" \t\n\\na1\0", longest, &mut |value| see(&valued(value)))
}

/// All images of up to two entries with these keys and such values of up to two bytes.
fn every_pair(_: Extent, see: See) -> Seen {
    const KEYS: [&[u8]; 3] = [b".a", b"*a", b".a.b"];
    let values = words(b" \n\\n:", 2);
    let all: Vec<Entry> = KEYS.iter().flat_map(|key| values.iter().map(|value| entry(key, value))).collect();
    see(&Image::of(&[]))?;
    all.iter().try_for_each(|one| see(&Image::of(std::slice::from_ref(one))))?;
    all.iter().try_for_each(|first| all.iter().try_for_each(|second| see(&Image::of(&[first.clone(), second.clone()]))))
}

/// All values of up to two bytes, as many to an image as go into it.
fn every_two_bytes(_: Extent, see: See) -> Seen {
    let all: Vec<Entry> = words(&(0..=255).collect::<Vec<u8>>(), 2).iter().map(|value| entry(b"*a", value)).collect();
    all.chunks(ENTRIES).try_for_each(|entries| see(&Image::of(entries)))
}

/// Values of up to 35 bytes with one or two that are escaped, or are blank, at every place: code may take many bytes at a time.
fn every_place(_: Extent, see: See) -> Seen {
    for length in 1..=35 {
        let mut entries = Vec::new();
        for (first, second) in (0..length).flat_map(|first| (first..length).map(move |second| (first, second))) {
            for (one, other) in [(b'\\', b'\\'), (b'\n', b'\\'), (b' ', b'\n')] {
                let mut value = vec![b'z'; length];
                value[second] = other;
                value[first] = one;
                entries.push(entry(&[b".".as_slice(), &b"abcdefgh"[..1 + first % 8]].concat(), &value));
            }
        }
        entries.chunks(ENTRIES).try_for_each(|entries| see(&Image::of(entries)))?;
    }
    Ok(())
}

/// Every key of up to four parts, with values that differ.
fn every_key(_: Extent, see: See) -> Seen {
    let values = words(b" \\\n", 2);
    let all: Vec<Entry> = keys(4).into_iter().zip(values.iter().cycle()).map(|(key, value)| (key, value.clone())).collect();
    all.chunks(ENTRIES).try_for_each(|entries| see(&Image::of(entries)))?;
    all.iter().try_for_each(|one| see(&Image::of(std::slice::from_ref(one))))
}

/// The images of all texts of up to four bytes that the rules of reading tell apart, alone and as a value; each once.
fn every_text(_: Extent, see: See) -> Seen {
    let mut seen = BTreeSet::new();
    let mut see_once = |text: &[u8]| {
        let Some(image) = Image::read(&Source::plain(text)) else { return Ok(()) };
        match seen.insert(image.entries()) {
            true => see(&image),
            false => Ok(()),
        }
    };
    on_each_word(b"a.*?:\\18n \t\n#!", 4, &mut see_once)?;
    on_each_word(b"\\018na \t\n", 4, &mut |value| see_once(&[b"a:", value].concat()))
}

const NAMES: [&[u8]; 7] = [b"a", b"b", b"A", b"font-size", b"_9", b"n", b"-"];

/// A key of so many parts, as an image writes it.
fn key(draw: &mut Draw, parts: usize) -> Vec<u8> {
    let mut key = Vec::new();
    for part in 1..=parts {
        key.push(draw.pick_byte(b"..*"));
        let any = part < parts && draw.one_in(4);
        key.extend(if any { b"?" } else { draw.pick(&NAMES) });
    }
    key
}

/// So many bytes: in one of three values any, else often those that the rule is about.
fn value(draw: &mut Draw, length: usize) -> Vec<u8> {
    let any = draw.one_in(3);
    let byte = |draw: &mut Draw| if any { draw.byte() } else { draw.pick_byte(b"  \t\t\n\n\\\\\\nna1:#!\"\0") };
    (0..length).map(|_| byte(draw)).collect()
}

fn entry_of(draw: &mut Draw, most: usize) -> Entry {
    let parts = if draw.one_in(50) { draw.between(KEY_PARTS - 1, KEY_PARTS) } else { draw.between(1, 4) };
    let length = draw.below(most + 1);
    (key(draw, parts), value(draw, length))
}

/// Entries of any bytes.
fn random(extent: Extent, see: See) -> Seen {
    extent.draw("entries to write", 15_000, |draw| {
        let most = if draw.one_in(20) { 600 } else { 12 };
        let count = if draw.one_in(40) { draw.between(20, 40) } else { draw.below(6) };
        let entries: Vec<Entry> = (0..count).map(|_| entry_of(draw, most)).collect();
        see(&Image::of(&entries))
    })
}

/// Sees the image of a source, if it has one.
fn of_source(source: &Source, see: See) -> Seen {
    Image::read(source).map_or(Ok(()), |image| see(&image))
}

fn of_random_texts(extent: Extent, see: See) -> Seen {
    extent.draw("texts to write", 10_000, |draw| {
        let query = texts::query(draw);
        of_source(&Source::plain(&texts::text(draw, 8, &query)), see)
    })
}

fn with_archives(extent: Extent, see: See) -> Seen {
    extent.draw("archives to write", 2_000, |draw| of_source(&archives::source(draw).0, see))
}

fn like_real_files(extent: Extent, see: See) -> Seen {
    extent.draw("realistic images", 1_000, |draw| of_source(&realistic::source(draw, 60), see))
}

/// Images of many entries and full stores: of readings, and of any bytes. About half have a text that is too long to be read.
fn near_the_limits(extent: Extent, see: See) -> Seen {
    extent.draw("images near the limits", 100, |draw| {
        of_source(&crowded::source(draw), see)?;
        see(&full(draw))
    })
}

/// An image of so many entries, or so many bytes, that none goes into it.
pub(crate) fn full(draw: &mut Draw) -> Image {
    let most = [20, 60, 120, 3_000][draw.below(4)];
    let mut entries = Vec::new();
    let mut room = BODIES_BYTES;
    while entries.len() < ENTRIES {
        let (key, mut value) = entry_of(draw, most);
        if key.len() > room {
            break;
        }
        value.truncate(room - key.len());
        room -= key.len() + value.len();
        entries.push((key, value));
    }
    Image::of(&entries)
}

/// Images with one or two words, or bytes of keys, changed: most of them are none.
fn damaged(extent: Extent, see: See) -> Seen {
    extent.draw("damaged images", 10_000, |draw| {
        let entries: Vec<Entry> = (0..draw.between(1, 4)).map(|_| entry_of(draw, 8)).collect();
        let mut image = Image::of(&entries);
        let used = usize::from(image.contents[1]);
        for _ in 0..draw.between(1, 2) {
            if draw.one_in(2) {
                let at = draw.below(2 + ROW_WORDS * entries.len());
                image.contents[at] = image.contents[at].wrapping_add(*draw.pick(&[&1, &2, &512, &32_768, &u16::MAX]));
            } else {
                let at = draw.below(used + 1);
                image.bodies[at] = draw.pick_byte(b"a.*?+:\n\0");
            }
        }
        see(&image)
    })
}

/// An image, and the length of its text, or 8.
pub struct AtLimit {
    pub label: &'static str,
    pub image: Image,
    pub expected: Result<usize, u8>,
}

/// The images whose text is longest, or as long as a text that is read may be, or that are full.
pub fn at_limits() -> Vec<AtLimit> {
    let at = |label, image, expected| AtLimit { label, image, expected };
    let backslashes = entry(b".a", &[b'\\'; BODIES_BYTES / ENTRIES - 2]);
    let long = |length: usize| valued(&vec![b'z'; length]);
    let blanks = |b: u8| Image::of(&vec![entry(b"*a", &[b; BODIES_BYTES / ENTRIES - 2]); ENTRIES]);
    let mut many = Image::of(&vec![entry(b".a", b""); ENTRIES]);
    many.contents[0] += 1;
    let mut past = long(BODIES_BYTES - 2);
    past.contents[1] += 1;
    past.contents[4] += 1;
    let wide = |parts: usize| Image::of(&[entry(&b"*a".repeat(parts), b" ")]);
    vec![
        at("no entries", Image::of(&[]), Ok(0)),
        at("the longest text", Image::of(&vec![backslashes; ENTRIES]), Ok(WRITTEN_BYTES)),
        at("512 values of newlines", blanks(b'\n'), Ok(WRITTEN_BYTES)),
        at("512 values of spaces", blanks(b' '), Ok(ENTRIES * (2 + 2 + 1 + 62 + 1))),
        at("512 empty values", Image::of(&vec![entry(b".a", b""); ENTRIES]), Ok(ENTRIES * 5)),
        at("one value of backslashes", valued(&[b'\\'; BODIES_BYTES - 2]), Ok(2 * BODIES_BYTES + 1)),
        at("one plain value", long(BODIES_BYTES - 2), Ok(BODIES_BYTES + 3)),
        at("one key", Image::of(&[entry(&[b".".as_slice(), &[b'a'; BODIES_BYTES - 1]].concat(), b"")]), Ok(BODIES_BYTES + 3)),
        at("the longest text that is read", long(TEXT_BYTES - 5), Ok(TEXT_BYTES)),
        at("a byte more", long(TEXT_BYTES - 4), Ok(TEXT_BYTES + 1)),
        at("16 parts", wide(KEY_PARTS), Ok(2 * KEY_PARTS + 2 + 2 + 1)),
        at("17 parts", wide(KEY_PARTS + 1), Err(8)),
        at("513 entries", many, Err(8)),
        at("a store of 32,769", past, Err(8)),
    ]
}

fn at_the_limits(_: Extent, see: See) -> Seen {
    at_limits().iter().try_for_each(|at| see(&at.image))
}

/// Entries, and their text: document 02 (iv), sentence by sentence.
pub struct Named {
    pub label: &'static str,
    pub entries: Vec<Entry>,
    pub text: Vec<u8>,
}

pub fn named() -> Vec<Named> {
    let all = |label, entries: &[(&[u8], &[u8])], text: &[u8]| Named {
        label,
        entries: entries.iter().map(|(key, value)| entry(key, value)).collect(),
        text: text.to_vec(),
    };
    let one = |label, value: &[u8], text: &[u8]| all(label, &[(b".a", value)], &[b".a: ", text, b"\n"].concat());
    let every: Vec<u8> = (1..=255).filter(|b| !b"\n\\".contains(b)).chain([0]).collect();
    vec![
        all("no entries", &[], b""),
        all("key, colon, space, value, newline", &[(b".a.b", b"x")], b".a.b: x\n"),
        all("every entry in its order", &[(b"*b", b"1"), (b".a", b"2"), (b"*b", b"1")], b"*b: 1\n.a: 2\n*b: 1\n"),
        all("bindings and ?", &[(b"*a.?*?.b-_9", b"x")], b"*a.?*?.b-_9: x\n"),
        one("an empty value", b"", b""),
        one("a backslash is doubled", b"\\", b"\\\\"),
        one("each backslash is doubled", b"\\\\n\\101\\", b"\\\\\\\\n\\\\101\\\\"),
        one("a newline", b"\n", b"\\n"),
        one("each newline", b"\n\nx\n", b"\\n\\nx\\n"),
        one("a backslash and a newline", b"\\\n", b"\\\\\\n"),
        one("a space that begins", b" x", b"\\ x"),
        one("a tab that begins", b"\tx", b"\\\tx"),
        one("a blank alone", b" ", b"\\ "),
        one("the first blank alone", b" \t x", b"\\ \t x"),
        one("blanks within and at the end", b"x \t y\t ", b"x \t y\t "),
        one("a blank after a newline", b"\n x", b"\\n x"),
        one("a zero byte", b"\0x\0", b"\0x\0"),
        one("what begins a comment or an include", b"#include \"p\"", b"#include \"p\""),
        one("what looks like an entry", b"! b: c", b"! b: c"),
        one("all other bytes", &every, &every),
    ]
}
