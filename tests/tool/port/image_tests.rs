//! Lookups in buffers that hold no image, or one that no reading made.

use crate::asking::{shown, Asking, Lookups};
use crate::both::{self, Both};
use crate::lookup_tests::Test;
use cases::draw::Draw;
use cases::texts;
use cases::words::each_word;
use model::image;
use model::limits::{BODIES_BYTES, CONTENTS_WORDS, DEFAULT_DEPTH, ENTRIES, KEY_PARTS, ROW_WORDS};
use records::Query;

pub const TESTS: [(&str, Test); 6] = [
    ("images of every length", lengths),
    ("images with a word changed", changed_words),
    ("images with a byte changed", changed_bytes),
    ("where the lines of an image stand", origins),
    ("images at the limits", limits),
    ("keys of an image", keys),
];

/// An image of a text, in buffers that are just long enough.
pub fn image_of(text: &[u8]) -> (Vec<u16>, Vec<u8>) {
    let (mut contents, mut bodies) = records::buffers();
    image::read(&mut contents, &mut bodies, &[text], &[0, 0], DEFAULT_DEPTH).expect("a text within limits");
    (contents, bodies)
}

/// Images that no reading made, beside the model.
struct Judging {
    both: Both,
    asking: Asking,
    good: usize,
    bad: usize,
}

impl Judging {
    fn new(lookups: Lookups) -> Self {
        Self { both: Both::new(both::PORTS), asking: Asking::new(lookups), good: 0, bad: 0 }
    }

    /// Compares the lookups, and tells whether the buffers hold an image.
    fn is_good(&mut self, contents: &[u16], bodies: &[u8]) -> Result<bool, String> {
        let query = if self.good % 2 == 0 { Query::new(b"a", b"") } else { Query::new(b"b.c", b"a") };
        self.both.put_image(contents, bodies, self.bad % 2 == 0);
        let words = self.asking.compare(&mut self.both, &query).map_err(|why| {
            let rows = &contents[..contents.len().min(11)];
            let used = bodies[..bodies.len().min(60)].escape_ascii();
            format!("contents of {} words {rows:?}.., bodies of {} bytes \"{used}\"..: {why}", contents.len(), bodies.len())
        })?;
        match words.refused() {
            None => self.good += 1,
            Some(8) => self.bad += 1,
            Some(_) => return Err(format!("a query within limits: {}", shown(words))),
        }
        Ok(words.refused().is_none())
    }

    fn expect(&mut self, label: &str, contents: &[u16], bodies: &[u8], good: bool) -> Result<(), String> {
        match self.is_good(contents, bodies)? == good {
            true => Ok(()),
            false => Err(format!("{label}: {}", if good { "refused" } else { "taken for an image" })),
        }
    }

    /// How many were images, and how many were none; an error if all were alike.
    fn report(&self) -> Result<String, String> {
        let Self { good, bad, .. } = self;
        match good.min(bad) {
            0 => Err(format!("{good} images and {bad} that are none")),
            _ => Ok(format!("{good} images looked up, {bad} that are none refused by 8")),
        }
    }
}

/// A good image in buffers of every length that is too short, and in some that are not.
fn lengths(lookups: Lookups) -> Result<String, String> {
    let mut judging = Judging::new(lookups);
    let (mut contents, mut bodies) = image_of(b"a:1\n*b.c:22");
    contents.resize(4096, 7);
    bodies.resize(BODIES_BYTES + 4096, 7);
    for words in (0..=CONTENTS_WORDS + 2).chain([4096]) {
        judging.expect("contents", &contents[..words], &bodies[..BODIES_BYTES], words >= CONTENTS_WORDS)?;
    }
    for bytes in (0..BODIES_BYTES).step_by(7).chain(BODIES_BYTES - 3..=BODIES_BYTES + 3).chain([BODIES_BYTES + 4096]) {
        judging.expect("bodies", &contents[..CONTENTS_WORDS], &bodies[..bytes], bytes >= BODIES_BYTES)?;
    }
    judging.report()
}

/// Words that are near a limit, or that sum past 16 bits with others.
const WORDS: [u16; 26] = [
    0, 1, 2, 3, 4, 5, 6, 7, 8, 9, 10, 64, 65, 255, 256, 511, 512, 513, 514, 32_766, 32_767, 32_768, 32_769, 65_533, 65_534,
    65_535,
];

/// Good images with the count or the used bytes changed to any word, and with one or two of the first
/// words changed to words that matter.
fn changed_words(lookups: Lookups) -> Result<String, String> {
    let mut judging = Judging::new(lookups);
    let (mut contents, bodies) = image_of(b"a:1\n*b.c:22");
    for at in [0, 1] {
        let kept = contents[at];
        for word in 0..=u16::MAX {
            contents[at] = word;
            judging.is_good(&contents, &bodies)?;
        }
        contents[at] = kept;
    }
    for text in [b"a:1\n*b.c:22".as_slice(), b"", b"a:", b"*a:z\n?.a:\nb.c:9"] {
        let (contents, bodies) = image_of(text);
        for first in 0..14 {
            for second in first..14 {
                for (one, other) in WORDS.iter().flat_map(|one| [0, 1, u16::MAX, 2].map(|more| (*one, more))) {
                    let mut changed = contents.clone();
                    changed[second] = changed[second].wrapping_add(other);
                    changed[first] = one;
                    judging.is_good(&changed, &bodies)?;
                }
            }
        }
    }
    judging.report()
}

/// The image of one entry with this key, and a value of so many bytes.
fn keyed(key: &[u8], value: usize) -> (Vec<u16>, Vec<u8>) {
    let (mut contents, mut bodies) = records::buffers();
    contents[..5].copy_from_slice(&[1, (key.len() + value) as u16, 0, key.len() as u16, value as u16]);
    bodies[..key.len()].copy_from_slice(key);
    (contents, bodies)
}

/// Every byte of an image changed to any other, every short key, and random images with some bytes and
/// words changed.
fn changed_bytes(lookups: Lookups) -> Result<String, String> {
    let mut judging = Judging::new(lookups);
    for text in [b"a:1\n*b.c:22".as_slice(), b"*a.?*b.c_-9Z:", b"a.a.a.a.a.a.a.a.a.a.a.a.a.a.a.a:x"] {
        let (contents, mut bodies) = image_of(text);
        for at in 0..usize::from(contents[1]) + 1 {
            let kept = bodies[at];
            for byte in 0..=255 {
                bodies[at] = byte;
                judging.is_good(&contents, &bodies)?;
            }
            bodies[at] = kept;
        }
    }
    let mut seen = Ok(());
    each_word(b"ab.*?+", 6, &mut |key| {
        let (contents, bodies) = keyed(key, key.len() % 2);
        if seen.is_ok() {
            seen = judging.is_good(&contents, &bodies).map(drop);
        }
    });
    seen?;
    let draw = &mut Draw::new(1, "changed images");
    for _ in 0..30_000 {
        let (mut contents, mut bodies) = records::buffers();
        let query = texts::query(draw);
        if image::read(&mut contents, &mut bodies, &[&texts::text(draw, 8, &query)], &[0, 0], DEFAULT_DEPTH).is_err() {
            continue;
        }
        let (rows, used) = (2 + ROW_WORDS * usize::from(contents[0]), usize::from(contents[1]));
        for _ in 0..draw.between(1, 2) {
            if draw.one_in(2) {
                let at = draw.below(rows);
                contents[at] = contents[at].wrapping_add(draw.pick(&[&1, &2, &3, &u16::MAX, &(u16::MAX - 1)]).to_owned());
            } else {
                bodies[draw.below(used + 1)] = draw.pick_byte(b"ab.*?+:\x00");
            }
        }
        judging.is_good(&contents, &bodies)?;
    }
    judging.report()
}

/// Every word that may say where a line stands, in the first row and in the last, and behind the last, where anything may stand.
fn origins(lookups: Lookups) -> Result<String, String> {
    let mut judging = Judging::new(lookups);
    let (mut contents, bodies) = image_of(b"a:1\n*b.c:22");
    for origin in (0..=130).chain([255, 256, 32_768, 65_470, 65_533, 65_534, 65_535]) {
        for row in 0..3 {
            let at = 5 + ROW_WORDS * row;
            let before = std::mem::replace(&mut contents[at], origin);
            let good = origin <= 64 || origin == 65_535 || row == 2;
            judging.expect(&format!("{origin} in row {row}"), &contents, &bodies, good)?;
            contents[at] = before;
        }
    }
    judging.report()
}

/// Counts of 512 and 513, stores of 32,768 and 32,769.
fn limits(lookups: Lookups) -> Result<String, String> {
    let mut judging = Judging::new(lookups);
    for count in [ENTRIES - 1, ENTRIES, ENTRIES + 1, ENTRIES + 2] {
        let mut contents = vec![0; 2 + ROW_WORDS * (ENTRIES + 2)];
        let mut bodies = vec![0; BODIES_BYTES];
        contents[..2].copy_from_slice(&[count as u16, 2 * count as u16]);
        for row in 0..count {
            contents[2 + ROW_WORDS * row..][..ROW_WORDS].copy_from_slice(&[2 * row as u16, 2, 0, row as u16 % 65]);
            bodies[2 * row..2 * row + 2].copy_from_slice(b".a");
        }
        judging.expect(&format!("{count} entries"), &contents, &bodies, count <= ENTRIES)?;
    }
    for used in [BODIES_BYTES - 1, BODIES_BYTES, BODIES_BYTES + 1, BODIES_BYTES + 2] {
        let (contents, mut bodies) = keyed(b".a", used - 2);
        bodies.resize(BODIES_BYTES + 4096, b'z');
        judging.expect(&format!("a store of {used}"), &contents, &bodies, used <= BODIES_BYTES)?;
    }
    judging.report()
}

/// Keys of 0 to 18 parts, with and without a name at the end, and keys with bytes that may not stand.
fn keys(lookups: Lookups) -> Result<String, String> {
    let mut judging = Judging::new(lookups);
    for parts in 0..=KEY_PARTS + 2 {
        for part in [b".a".as_slice(), b"*a", b".?", b"*?", b".aa"] {
            let key = part.repeat(parts);
            let good = (1..=KEY_PARTS).contains(&parts);
            let (contents, bodies) = keyed(&key, 3);
            judging.expect(&format!("{parts} parts"), &contents, &bodies, good && !key.ends_with(b"?"))?;
            let named = [&key[..], b"*b"].concat();
            let (contents, bodies) = keyed(&named, 3);
            judging.expect(&format!("{parts} parts and a name"), &contents, &bodies, parts < KEY_PARTS)?;
        }
    }
    for (key, good) in [
        (b".".as_slice(), false),
        (b"a", false),
        (b".a.", false),
        (b".a*", false),
        (b".*a", false),
        (b".?a", false),
        (b".a?", false),
        (b".a b", false),
        (b".a:", false),
        (b".a\x00", false),
        (b".\xc3\xa9", false),
        (b"*-_9Zz", true),
    ] {
        let (contents, bodies) = keyed(key, 0);
        judging.expect(&format!("the key {}", key.escape_ascii()), &contents, &bodies, good)?;
    }
    judging.report()
}
