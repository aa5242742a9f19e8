//! The migrating call beside the model: its word, every word and byte of the new buffers and around them, and that the old image
//! stays as it was. A query gets from the new image what it gets from one of four words a row that holds the old one's entries.

use crate::asking::{self, shown, Asking};
use crate::both::{self, word_of, Answer, Both, Shape, SHAPES};
use crate::fenced::Fenced;
use cases::images::Image;
use model::image;
use model::limits::{BODIES_BYTES, CONTENTS_WORDS, ENTRIES, OLD_CONTENTS_WORDS, OLD_ROW_WORDS, ROW_WORDS};
use records::Query;

pub type Migrate = fn(&[u16], &[u8], &mut [u16], &mut [u8]) -> u64;

const OLD_PAGES: usize = 18;

#[derive(Default)]
pub struct Counts {
    images: usize,
    bad: usize,
    short: usize,
    lookups: usize,
}

impl Counts {
    /// What was compared; an error if nothing was.
    pub fn report(&self) -> Result<String, String> {
        let Self { images, bad, short, lookups } = self;
        if *images == 0 || *short == 0 || *lookups == 0 {
            return Err("too little was compared".to_string());
        }
        Ok(format!(
            "{images} old images carried over and {bad} refused by 8, {short} with short buffers by 1, beside the model; {lookups} \
             lookups as before"
        ))
    }
}

pub struct Migrating {
    migrate: Migrate,
    old_contents: Fenced,
    old_bodies: Fenced,
    /// The new image.
    both: Both,
    /// The same entries, with rows of four words from before.
    before: Both,
    asking: Asking,
    turn: usize,
    pub counts: Counts,
}

impl Migrating {
    pub fn new(migrate: Migrate) -> Self {
        Self {
            migrate,
            old_contents: Fenced::new(OLD_PAGES),
            old_bodies: Fenced::new(OLD_PAGES),
            both: Both::new(both::PORTS),
            before: Both::new(both::PORTS),
            asking: Asking::new(asking::PORTS),
            turn: 0,
            counts: Counts::default(),
        }
    }

    /// Compares one image of many, with rows of three words: with new buffers that are long enough, in the next of the shapes, and
    /// with some that are not.
    pub fn see(&mut self, image: &Image) -> Result<(), String> {
        let old = old_of(image);
        self.turn += 1;
        let shape = SHAPES[self.turn % SHAPES.len()];
        let short = match self.turn % 2 {
            0 => Shape { words: CONTENTS_WORDS - 1 - self.turn % 600, ..shape },
            _ => Shape { bytes: BODIES_BYTES - 1 - self.turn % 600, ..shape },
        };
        let seen = self.compare(&old, short).and_then(|_| self.compare(&old, shape)).and_then(|answer| match answer {
            Ok(_) => self.same_lookups(image),
            Err(_) => Ok(()),
        });
        seen.map_err(|why| format!("old contents {:?}..: {why}", &old.contents[..11]))
    }

    /// Compares one call with new buffers lent like this, full of garbage.
    pub fn compare(&mut self, old: &Image, shape: Shape) -> Result<Answer, String> {
        let old_contents = put_words(&mut self.old_contents, &old.contents, shape.at_end);
        let old_bodies = self.old_bodies.copy(&old.bodies, shape.at_end).ok_or("bodies too long")?;
        let (contents, bodies) = self.both.lend(shape);
        let word = (self.migrate)(old_contents, old_bodies, contents, bodies);
        if old_contents != &old.contents[..] || old_bodies != &old.bodies[..] {
            return Err("the port changed the old image".to_string());
        }
        let (contents, bodies) = self.both.models_image_mut();
        let answer = match image::migrate(&old.contents, &old.bodies, contents, bodies) {
            Ok(accepted) => Ok((accepted.entries, accepted.opens)),
            Err(refusal) => Err(refusal.number()),
        };
        if word != word_of(answer) {
            return Err(format!("the port answers {}, the model {}", both::shown(word), both::shown(word_of(answer))));
        }
        self.both.same_buffers()?;
        match answer {
            Ok(_) => self.counts.images += 1,
            Err(1) => self.counts.short += 1,
            Err(_) => self.counts.bad += 1,
        }
        Ok(answer)
    }

    /// Asks for some keys' last names in the new image and in the one with rows of four words.
    fn same_lookups(&mut self, image: &Image) -> Result<(), String> {
        let Some(entries) = image.entries() else { return Ok(()) };
        self.before.put_image(&image.contents, &image.bodies, self.turn % 2 == 0);
        let names = entries.iter().take(2).map(|(key, _)| key.rsplit(|b| b".*".contains(b)).next().unwrap_or_default());
        for name in names.chain([b"a.b".as_slice()]) {
            let query = Query::new(&name[..name.len().min(1000)], b"");
            let now = self.asking.compare(&mut self.both, &query)?;
            let before = self.asking.compare(&mut self.before, &query)?;
            let same =
                (now.bytes, now.string, now.boolean, now.value) == (before.bytes, before.string, before.boolean, before.value);
            if !same {
                return Err(format!("\"{}\" gets {}, and before {}", name.escape_ascii(), shown(now), shown(before)));
            }
            self.counts.lookups += 1;
        }
        Ok(())
    }
}

/// The image with rows of three words: each row without its fourth.
pub fn old_of(image: &Image) -> Image {
    let mut contents = image.contents[..2].to_vec();
    image.contents[2..].chunks(ROW_WORDS).take(ENTRIES).for_each(|row| contents.extend(&row[..OLD_ROW_WORDS]));
    assert_eq!(contents.len(), OLD_CONTENTS_WORDS);
    Image { contents, bodies: image.bodies.clone() }
}

/// A copy of the words that stands at one of the fences.
fn put_words<'a>(room: &'a mut Fenced, words: &[u16], at_end: bool) -> &'a [u16] {
    let room = room.words();
    let start = if at_end { room.len() - words.len() } else { 0 };
    let place = &mut room[start..start + words.len()];
    place.copy_from_slice(words);
    place
}
