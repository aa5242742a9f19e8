//! The writing call beside the model: its word, and every byte of the lent buffer and around it. What it writes is read again,
//! by the port, by the model and by the Rust.

use crate::both::{self, Both};
use crate::fenced::Fenced;
use crate::run::shown;
use cases::draw::Draw;
use cases::images::{Entry, Image};
use model::limits::{ROW_WORDS, TEXT_BYTES, WRITTEN_BYTES};
use model::line::{read_key, Component};
use model::writing;
use records::{archive_of, Query, Source};
use std::collections::HashMap;
use std::ops::Range;

pub type Write = fn(&[u16], &[u8], &mut [u8]) -> u64;

/// The text's length, or the refusal's number.
pub type Answer = Result<usize, u8>;

const ROOM_PAGES: usize = 17;
/// The longest buffer that is lent: some bytes more than the longest text has.
pub const ROOM_BYTES: usize = ROOM_PAGES * 4096;

/// A buffer as it is lent: how long, and at which of the fences. What is between it and the other fence is guarded.
#[derive(Clone, Copy, Debug)]
pub struct Lent {
    pub length: usize,
    pub at_end: bool,
}

impl Lent {
    fn place(self) -> Range<usize> {
        match self.at_end {
            true => ROOM_BYTES - self.length..ROOM_BYTES,
            false => 0..self.length,
        }
    }
}

/// Texts of up to this many bytes are kept, to be told from those of other entries.
const KEPT_BYTES: usize = 100;

#[derive(Default)]
pub struct Counts {
    images: usize,
    bad: usize,
    short: usize,
    read_again: usize,
    long: usize,
    lookups: usize,
    by_the_rust: usize,
}

impl Counts {
    /// What was compared; an error if nothing was.
    pub fn report(&self) -> Result<String, String> {
        let Self { images, bad, short, read_again, long, lookups, by_the_rust } = self;
        if *images == 0 || *short == 0 || *read_again == 0 || *lookups == 0 {
            return Err("too little was compared".to_string());
        }
        let by_the_rust =
            if cfg!(feature = "rust") { format!("{by_the_rust} by the Rust") } else { "none by the Rust".to_string() };
        Ok(format!(
            "{images} images written and {bad} refused by 8, {short} buffers refused by 11, beside the model; {read_again} texts read \
             again, {by_the_rust}, {long} too long for it; {lookups} lookups in both images"
        ))
    }
}

pub struct Writing {
    write: Write,
    /// The image that is written.
    both: Both,
    buffer: Fenced,
    models_buffer: Vec<u8>,
    /// What the buffer holds before a call, from a place that is another each time.
    garbage: Vec<u8>,
    again: Both,
    archives: [Vec<u8>; 3],
    /// How many images were lent, and how many calls were made.
    turn: usize,
    calls: usize,
    /// The entries of each short text.
    texts: HashMap<Vec<u8>, Vec<Entry>>,
    pub counts: Counts,
}

impl Writing {
    pub fn new(write: Write) -> Self {
        let draw = &mut Draw::new(0, "garbage in a buffer");
        Self {
            write,
            both: Both::new(both::PORTS),
            buffer: Fenced::new(ROOM_PAGES),
            models_buffer: vec![0; ROOM_BYTES],
            garbage: (0..2 * ROOM_BYTES).map(|_| draw.byte()).collect(),
            again: Both::new(both::PORTS),
            archives: [
                archive_of(&[]),
                archive_of(&[(b"p", b"b:1")]),
                archive_of(&[(b"a", b"a:1\n#include \"a\""), (b"x", b"*:")]),
            ],
            turn: 0,
            calls: 0,
            texts: HashMap::new(),
            counts: Counts::default(),
        }
    }

    /// Compares one image of many: with a buffer that is long enough, and with one that is not, each in the next of their lengths.
    /// What is written is read again.
    pub fn see(&mut self, image: &Image) -> Result<(), String> {
        let seen = self.written_and_read(image);
        seen.map_err(|why| match image.entries() {
            Some(entries) => format!("entries {}: {why}", described(&entries)),
            None => format!("contents {:?}..: {why}", &image.contents[..11]),
        })
    }

    fn written_and_read(&mut self, image: &Image) -> Result<(), String> {
        self.lend(image);
        let turn = self.turn;
        let length = writing::text(&image.contents, &image.bodies).map_or(9, |text| text.len());
        let short = Lent { length: [0, length.saturating_sub(1), length / 2][turn % 3], at_end: turn / 3 % 2 == 0 };
        if short.length < length {
            self.counts.short += usize::from(self.compare(short)? == Err(11));
        }
        let enough = Lent { length: [length, length + 1, WRITTEN_BYTES, ROOM_BYTES][turn % 4], at_end: turn / 4 % 2 == 0 };
        match self.compare(enough)? {
            Err(_) => self.counts.bad += 1,
            Ok(length) => {
                self.counts.images += 1;
                let text = self.text(enough, length);
                self.read_again(&text, &image.entries().ok_or("no image was written")?)?;
            }
        }
        Ok(())
    }

    /// Lends the image to both, now and then in longer buffers, and with garbage where no entries are.
    pub fn lend(&mut self, image: &Image) {
        let turn = self.turn;
        let Image { mut contents, mut bodies } = image.clone();
        if turn % 3 == 0 {
            let rows = (2 + ROW_WORDS * usize::from(contents[0])).min(contents.len());
            let used = usize::from(contents[1]).min(bodies.len());
            contents[rows..].fill(0xA5C3 ^ turn as u16);
            bodies[used..].fill(turn as u8);
        }
        if turn % 5 == 0 {
            contents.extend([0x5A5A; 9]);
            bodies.extend([b'a'; 9]);
        }
        self.lend_slices(&contents, &bodies);
    }

    /// Lends slices, which may be too short for an image.
    pub fn lend_slices(&mut self, contents: &[u16], bodies: &[u8]) {
        self.turn += 1;
        self.both.put_image(contents, bodies, self.turn % 2 == 0);
    }

    /// Compares one call.
    pub fn compare(&mut self, lent: Lent) -> Result<Answer, String> {
        let word = self.call(lent);
        self.both.same_buffers()?;
        let (contents, bodies) = self.both.models_image();
        let models = writing::write(contents, bodies, &mut self.models_buffer[lent.place()]).map_err(|refusal| refusal.number());
        if word != word_of(models) {
            return Err(format!("the port answers {word:#x}, the model {models:?}, with {lent:?}"));
        }
        let (ports, theirs) = (self.buffer.bytes(), &self.models_buffer[..]);
        if ports != theirs {
            let at = ports.iter().zip(theirs).position(|(port, model)| port != model).expect("a difference");
            let from = at as isize - lent.place().start as isize;
            return Err(format!("byte {from} is {:#x} by the port, {:#x} by the model, with {lent:?}", ports[at], theirs[at]));
        }
        Ok(models)
    }

    /// Has the port write into a buffer full of garbage.
    fn call(&mut self, lent: Lent) -> u64 {
        self.calls += 1;
        let from = self.calls.wrapping_mul(62_989) % ROOM_BYTES;
        let garbage = &self.garbage[from..from + ROOM_BYTES];
        self.buffer.bytes().copy_from_slice(garbage);
        self.models_buffer.copy_from_slice(garbage);
        let (contents, bodies) = self.both.image();
        (self.write)(contents, bodies, &mut self.buffer.bytes()[lent.place()])
    }

    /// The text of this length that stands in the buffer that was lent last.
    pub fn text(&mut self, lent: Lent, length: usize) -> Vec<u8> {
        self.buffer.bytes()[lent.place()][..length].to_vec()
    }

    /// Reads a text with an archive, and compares what it leaves with the entries.
    pub fn read_again(&mut self, text: &[u8], entries: &[Entry]) -> Result<(), String> {
        if text.len() <= KEPT_BYTES {
            let kept = self.texts.entry(text.to_vec()).or_insert_with(|| entries.to_vec());
            if kept != entries {
                return Err(format!("{} is the text of {} too", shown(text), described(kept)));
            }
        }
        let archive = self.archives[self.turn % self.archives.len()].clone();
        let answer = self.again.compare(&Source::text(text.to_vec(), archive))?;
        if text.len() > TEXT_BYTES {
            self.counts.long += 1;
            return if answer == Err(2) { Ok(()) } else { Err(format!("a text of {} bytes is read: {answer:?}", text.len())) };
        }
        let expected = Image::of(entries);
        let (contents, bodies) = self.again.image();
        let (contents, bodies) = (&contents[..expected.contents.len()], &bodies[..expected.bodies.len()]);
        if answer != Ok((entries.len(), 0)) || contents != expected.contents || bodies != expected.bodies {
            return Err(format!("{}, read again, gives {answer:?} and {}", shown(text), described(&self.read_entries())));
        }
        self.counts.read_again += 1;
        self.same_lookups(entries)?;
        self.read_by_the_rust(text, entries)
    }

    fn read_entries(&mut self) -> Vec<Entry> {
        self.again.entries().iter().map(|(key, value)| (key.to_vec(), value.to_vec())).collect()
    }

    /// Looks some of the keys up in the image that was written and in the one that was read again.
    fn same_lookups(&mut self, entries: &[Entry]) -> Result<(), String> {
        for (key, _) in entries.iter().take(3) {
            let query = query_for(key);
            let look_up = |both: &mut Both| {
                let (contents, bodies) = both.image();
                port::get_bytes_word(contents, bodies, &query.name, &query.class)
            };
            let (first, second) = (look_up(&mut self.both), look_up(&mut self.again));
            if first != second {
                return Err(format!("{} finds {first:#x}, and {second:#x} in what was read again", shown(&query.name)));
            }
            self.counts.lookups += 1;
        }
        Ok(())
    }

    /// Has the port write, and what it writes read by the Rust alone.
    pub fn see_by_the_rust(&mut self, image: &Image) -> Result<(), String> {
        self.lend(image);
        let lent = Lent { length: WRITTEN_BYTES, at_end: true };
        let word = self.call(lent);
        if word & 0xFFFF_FFFF != 0 {
            return Err(format!("the word {word:#x}"));
        }
        let text = self.text(lent, (word >> 32) as usize);
        self.read_by_the_rust(&text, &image.entries().ok_or("no image was written")?)
    }

    /// The Rust reads the entries that the image holds.
    #[cfg(feature = "rust")]
    fn read_by_the_rust(&mut self, text: &[u8], entries: &[Entry]) -> Result<(), String> {
        let rusts = crate::rust::listed(&oracle::resource_manager::Database::new_from_data(text));
        if rusts != entries {
            return Err(format!("the Rust reads {} as {}", shown(text), described(&rusts)));
        }
        self.counts.by_the_rust += 1;
        Ok(())
    }

    #[cfg(not(feature = "rust"))]
    fn read_by_the_rust(&mut self, _: &[u8], _: &[Entry]) -> Result<(), String> {
        Ok(())
    }
}

fn word_of(answer: Answer) -> u64 {
    match answer {
        Ok(length) => (length as u64) << 32,
        Err(number) => number.into(),
    }
}

/// A query that a key matches.
fn query_for(key: &[u8]) -> Query {
    let parts: Vec<Vec<u8>> = read_key(key)
        .expect("a key")
        .into_iter()
        .map(|part| match part.component {
            Component::Name(name) => name,
            Component::Any => b"x".to_vec(),
        })
        .collect();
    Query::new(&parts.join(&b'.'), b"")
}

fn described(entries: &[Entry]) -> String {
    let said: Vec<String> = entries.iter().take(5).map(|(key, value)| format!("{} = {}", shown(key), shown(value))).collect();
    let more = if entries.len() > 5 { format!(".. {} in all", entries.len()) } else { String::new() };
    format!("[{}]{more}", said.join("; "))
}
