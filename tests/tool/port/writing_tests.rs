//! Tests of the writing call by name: document 02 (iv)'s sentences, buffers of every length, and what it refuses.

use crate::image_tests::image_of;
use crate::writing::{Answer, Lent, Write, Writing, ROOM_BYTES};
use cases::images::{at_limits, family, named, AtLimit, Image, Named};
use cases::readings::Extent;
use model::limits::{BODIES_BYTES, CONTENTS_WORDS, WRITTEN_BYTES};

type Test = fn(Write) -> Result<String, String>;

const TESTS: [(&str, Test); 5] = [
    ("writing by name", by_name),
    ("writing at the limits", limits),
    ("writing into buffers of every length", lengths),
    ("writing what is no image", no_images),
    ("writing into no buffer", no_buffer),
];

pub fn names() -> impl Iterator<Item = &'static str> {
    TESTS.iter().map(|(name, _)| *name)
}

/// Runs a test on the call, or none if there is no such test.
pub fn test(name: &str, write: Write) -> Option<Result<String, String>> {
    TESTS.iter().find(|(of, _)| *of == name).map(|(_, test)| test(write))
}

/// The call gives what is expected, at either fence.
fn gives(writing: &mut Writing, label: &str, length: usize, expected: Answer) -> Result<(), String> {
    for at_end in [true, false] {
        let answer = writing.compare(Lent { length, at_end }).map_err(|why| format!("{label}: {why}"))?;
        if answer != expected {
            return Err(format!("{label}, with a buffer of {length} bytes: {answer:?}, and not {expected:?}"));
        }
    }
    Ok(())
}

/// Each sentence, with the text that it asks for.
fn by_name(write: Write) -> Result<String, String> {
    let mut writing = Writing::new(write);
    let named = named();
    for Named { label, entries, text } in &named {
        writing.lend(&Image::of(entries));
        for more in [0, 1, WRITTEN_BYTES] {
            let lent = Lent { length: (text.len() + more).min(ROOM_BYTES), at_end: more != 1 };
            let answer = writing.compare(lent).map_err(|why| format!("{label}: {why}"))?;
            if answer != Ok(text.len()) || writing.text(lent, text.len()) != *text {
                return Err(format!("{label}: not \"{}\"", text.escape_ascii()));
            }
        }
        writing.read_again(text, entries).map_err(|why| format!("{label}: {why}"))?;
    }
    Ok(format!("{} texts", named.len()))
}

/// The longest text, the longest that is read again, no entries, and one more than an image holds.
fn limits(write: Write) -> Result<String, String> {
    let mut writing = Writing::new(write);
    let limits = at_limits();
    for AtLimit { label, image, expected } in &limits {
        writing.lend(image);
        let enough = expected.unwrap_or(100);
        for length in [enough, enough + 1, WRITTEN_BYTES, ROOM_BYTES] {
            gives(&mut writing, label, length, *expected)?;
        }
        for short in [0, enough / 2, enough.saturating_sub(1)] {
            if short < enough {
                gives(&mut writing, label, short, expected.and(Err(11)))?;
            }
        }
        writing.see(image).map_err(|why| format!("{label}: {why}"))?;
    }
    Ok(format!("{} images", limits.len()))
}

/// Every length up to that of the text and some more, and those around the longest text.
fn lengths(write: Write) -> Result<String, String> {
    let mut writing = Writing::new(write);
    let mut count = 0;
    let entries: Vec<_> = named().into_iter().take(16).flat_map(|named| named.entries).collect();
    let longest = at_limits().into_iter().find(|at| at.expected == Ok(WRITTEN_BYTES)).ok_or("no longest text")?.image;
    let (contents, bodies) = image_of(b"a.b: x");
    for (image, text, from) in [
        (Image { contents, bodies }, 8, 0),
        (Image::of(&entries), entries.iter().map(length_of).sum(), 0),
        (longest, WRITTEN_BYTES, WRITTEN_BYTES - 70),
    ] {
        writing.lend(&image);
        for length in from..=text + 20 {
            gives(&mut writing, "every length", length, if length < text { Err(11) } else { Ok(text) })?;
            count += 1;
        }
    }
    Ok(format!("{count} lengths, at either fence"))
}

/// The bytes of an entry's text.
fn length_of((key, value): &(Vec<u8>, Vec<u8>)) -> usize {
    let escapes =
        value.iter().filter(|b| b"\\\n".contains(b)).count() + usize::from(value.starts_with(b" ") || value.starts_with(b"\t"));
    key.len() + 2 + value.len() + escapes + 1
}

/// 8 comes before 11: with any buffer, for contents or bodies that are too short, and for images that are none.
fn no_images(write: Write) -> Result<String, String> {
    let mut writing = Writing::new(write);
    let (contents, bodies) = image_of(b"a:1\n*b.c:22");
    let short =
        [(0, 0), (1, BODIES_BYTES), (CONTENTS_WORDS - 1, BODIES_BYTES), (CONTENTS_WORDS, BODIES_BYTES - 1), (CONTENTS_WORDS, 0)];
    let mut bad: Vec<(Vec<u16>, Vec<u8>)> =
        short.iter().map(|(words, bytes)| (contents[..*words].to_vec(), bodies[..*bytes].to_vec())).collect();
    for (at, more) in [(0, 1), (0, 513), (1, 1), (1, u16::MAX), (2, 1), (3, 1), (4, 1), (5, 65), (5, 65_534), (6, 1), (7, 1)] {
        let mut changed = contents.clone();
        changed[at] = changed[at].wrapping_add(more);
        bad.push((changed, bodies.clone()));
    }
    for (at, byte) in [(0, b'a'), (1, b'?'), (1, b':'), (3, b'+'), (6, b'.')] {
        let mut changed = bodies.clone();
        changed[at] = byte;
        bad.push((contents.clone(), changed));
    }
    for (contents, bodies) in &bad {
        writing.lend_slices(contents, bodies);
        for length in [0, 1, 5, 12, 13, 14, 100, WRITTEN_BYTES] {
            gives(&mut writing, &format!("contents {:?}", &contents[..contents.len().min(8)]), length, Err(8))?;
        }
    }
    Ok(format!("{} that are none refused by 8", bad.len()))
}

/// A buffer of no bytes, which is enough for no entries.
fn no_buffer(write: Write) -> Result<String, String> {
    let mut writing = Writing::new(write);
    writing.lend(&Image::of(&[]));
    gives(&mut writing, "no entries", 0, Ok(0))?;
    writing.lend(&Image::of(&[(b".a".to_vec(), Vec::new())]));
    gives(&mut writing, "an entry", 0, Err(11))?;
    Ok("no entries fit".to_string())
}

/// What a faulty call is held to.
pub fn whole_comparison(write: Write) -> Result<(), String> {
    names().try_for_each(|name| test(name, write).expect("a test").map(drop))?;
    let mut writing = Writing::new(write);
    ["values", "entries", "damaged"].into_iter().try_for_each(|name| {
        let family = family(name).ok_or("no such family")?;
        family(Extent { seed: 1, times: 1 }, &mut |image| writing.see(image))
    })
}

/// What is written read by the Rust alone, with no model.
pub fn comparison_with_the_rust(write: Write) -> Result<(), String> {
    let mut writing = Writing::new(write);
    named().iter().try_for_each(|named| writing.see_by_the_rust(&Image::of(&named.entries)))
}
