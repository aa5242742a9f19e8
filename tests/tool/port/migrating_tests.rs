//! Tests of the migrating call by name: old images and new buffers of every length, old images with a word or a byte changed, and
//! those at the limits.

use crate::both::{Answer, Shape, SHAPES};
use crate::image_tests::image_of;
use crate::migrating::{old_of, Migrate, Migrating};
use cases::images::{at_limits, family, Image};
use cases::readings::Extent;
use model::limits::{BODIES_BYTES, CONTENTS_WORDS, OLD_CONTENTS_WORDS, OLD_ROW_WORDS};

type Test = fn(Migrate) -> Result<String, String>;

const TESTS: [(&str, Test); 4] = [
    ("migrations of every length", lengths),
    ("migrations into short buffers", short_buffers),
    ("migrations with a word changed", changed_words),
    ("migrations at the limits", limits),
];

pub fn names() -> impl Iterator<Item = &'static str> {
    TESTS.iter().map(|(name, _)| *name)
}

/// Runs a test on the call, or none if there is no such test.
pub fn test(name: &str, migrate: Migrate) -> Option<Result<String, String>> {
    TESTS.iter().find(|(of, _)| *of == name).map(|(_, test)| test(migrate))
}

fn old(text: &[u8]) -> Image {
    let (contents, bodies) = image_of(text);
    old_of(&Image { contents, bodies })
}

fn expect(label: &str, answer: Answer, expected: Answer) -> Result<(), String> {
    match answer == expected {
        true => Ok(()),
        false => Err(format!("{label}: {answer:?}, and not {expected:?}")),
    }
}

/// A good old image in buffers of every length that is too short, and in some that are not: an old image is judged by its own
/// length, before the new buffers are looked at.
fn lengths(migrate: Migrate) -> Result<String, String> {
    let mut migrating = Migrating::new(migrate);
    let mut image = old(b"a:1\n*b.c:22");
    image.contents.resize(4096, 7);
    image.bodies.resize(BODIES_BYTES + 4096, 7);
    let long = (OLD_CONTENTS_WORDS, BODIES_BYTES);
    let words = (0..=OLD_CONTENTS_WORDS + 2).chain([CONTENTS_WORDS - 1, CONTENTS_WORDS, 4096]).map(|words| (words, long.1));
    let bytes = (0..BODIES_BYTES).step_by(7).chain(BODIES_BYTES - 3..=BODIES_BYTES + 3).chain([BODIES_BYTES + 4096]);
    let mut count = 0;
    for (words, bytes) in words.chain(bytes.map(|bytes| (long.0, bytes))) {
        let lent = Image { contents: image.contents[..words].to_vec(), bodies: image.bodies[..bytes].to_vec() };
        let good = words >= long.0 && bytes >= long.1;
        for (shape, otherwise) in [(SHAPES[count % SHAPES.len()], Ok((2, 0))), (Shape { words: 9, ..SHAPES[0] }, Err(1))] {
            let answer = migrating.compare(&lent, shape)?;
            expect(&format!("{words} words and {bytes} bytes"), answer, if good { otherwise } else { Err(8) })?;
        }
        count += 1;
    }
    Ok(format!("{count} lengths"))
}

/// New buffers of every length that is too short are refused by 1.
fn short_buffers(migrate: Migrate) -> Result<String, String> {
    let mut migrating = Migrating::new(migrate);
    let image = old(b"a:1\n*b.c:22");
    let words = (0..CONTENTS_WORDS).map(|words| (words, BODIES_BYTES));
    let bytes = (0..BODIES_BYTES).step_by(7).chain([BODIES_BYTES - 1]).map(|bytes| (CONTENTS_WORDS, bytes));
    let mut count = 0;
    for (words, bytes) in words.chain(bytes) {
        let answer = migrating.compare(&image, Shape { words, bytes, at_end: count % 2 == 0 })?;
        expect(&format!("{words} words and {bytes} bytes"), answer, Err(1))?;
        count += 1;
    }
    Ok(format!("{count} migrations refused by 1"))
}

/// Old images with one of the first words changed to any word, or one of the first bytes to any byte.
fn changed_words(migrate: Migrate) -> Result<String, String> {
    let mut migrating = Migrating::new(migrate);
    let mut count = [0, 0];
    let mut compare = |image: &Image| -> Result<(), String> {
        let shape = SHAPES[(count[0] + count[1]) % SHAPES.len()];
        count[usize::from(migrating.compare(image, shape)?.is_ok())] += 1;
        Ok(())
    };
    for text in [b"a:1\n*b.c:22".as_slice(), b"", b"*a:z\n?.a:\nb.c:9"] {
        let image = old(text);
        let words = (0..=520).chain((520..u16::MAX - 3).step_by(997)).chain(u16::MAX - 3..=u16::MAX);
        for (at, word) in (0..2 + 3 * OLD_ROW_WORDS).flat_map(|at| words.clone().map(move |word| (at, word))) {
            let mut changed = image.clone();
            changed.contents[at] = word;
            compare(&changed)?;
        }
        for (at, byte) in (0..12).flat_map(|at| (0..=255).map(move |byte| (at, byte))) {
            let mut changed = image.clone();
            changed.bodies[at] = byte;
            compare(&changed)?;
        }
    }
    match count {
        [0, _] | [_, 0] => Err(format!("{count:?} that are none, and images")),
        [bad, good] => Ok(format!("{good} old images carried over, {bad} that are none refused by 8")),
    }
}

/// The images at the limits, and a new image, which is none by the old rows.
fn limits(migrate: Migrate) -> Result<String, String> {
    let mut migrating = Migrating::new(migrate);
    let limits = at_limits();
    for at in &limits {
        migrating.see(&at.image).map_err(|why| format!("{}: {why}", at.label))?;
        let answer = migrating.compare(&old_of(&at.image), SHAPES[0])?;
        expect(at.label, answer, at.expected.map(|_| (usize::from(at.image.contents[0]), 0)))?;
    }
    let (contents, bodies) = image_of(b"a:1\n*b.c:22");
    let answer = migrating.compare(&Image { contents, bodies }, SHAPES[0])?;
    expect("an image with rows of four words", answer, Err(8))?;
    Ok(format!("{} images", limits.len()))
}

/// What a faulty call is held to.
pub fn whole_comparison(migrate: Migrate) -> Result<(), String> {
    names().try_for_each(|name| test(name, migrate).expect("a test").map(drop))?;
    let mut migrating = Migrating::new(migrate);
    ["entries", "damaged"].into_iter().try_for_each(|name| {
        let family = family(name).ok_or("no such family")?;
        family(Extent { seed: 1, times: 1 }, &mut |image| migrating.see(image))
    })
}
