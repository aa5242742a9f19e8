//! The port and the model on one case: the word that the call returns, and every word and byte of
//! both buffers and around them.

use crate::fenced::Fenced;
use crate::lending::{holds, Edit, StartUpRoom};
use cases::draw::Draw;
use model::image;
use model::limits::{BODIES_BYTES, CONTENTS_WORDS, DEFAULT_DEPTH, GREATEST_DEPTH, ROW_WORDS};
use port::StartUp;
use records::{Source, Start};
use std::ops::Range;

pub type Read = fn(&[u8], &[u8], &mut [u16], &mut [u8]) -> u64;
pub type ReadDefault = fn(&StartUp, &[u8], &mut [u16], &mut [u8]) -> u64;
pub type ReadDepth = fn(&[u8], &[u8], u64, &mut [u16], &mut [u8]) -> u64;
pub type ReadDefaultDepth = fn(&StartUp, &[u8], u64, &mut [u16], &mut [u8]) -> u64;

/// The reading calls of the port, or faulty ones in their place.
#[derive(Clone, Copy)]
pub struct Calls {
    /// At the Rust's depth.
    pub read: Read,
    pub read_default: ReadDefault,
    /// At any other.
    pub read_depth: ReadDepth,
    pub read_default_depth: ReadDefaultDepth,
    /// With no depth given.
    pub read_plain: Read,
    /// What is done to a start-up before it is read: nothing, but for a faulty port.
    pub edit: Edit,
}

pub const PORTS: Calls = Calls {
    read: port::read_word,
    read_default: port::read_default_word,
    read_depth: port::read_depth_word,
    read_default_depth: port::read_default_depth_word,
    read_plain: port::read_plain_word,
    edit: |start_up| start_up,
};

/// Entries and opens, or the refusal's number.
pub type Answer = Result<(usize, usize), u8>;

const TEXT_PAGES: usize = 32;
const CONTENTS_PAGES: usize = 2;
const BODIES_PAGES: usize = 9;
const MOST_WORDS: usize = CONTENTS_PAGES * 2048;
const MOST_BYTES: usize = BODIES_PAGES * 4096;

/// How the buffers of a call are lent: how long, and at which of the fences everything lent stands.
/// What is between the slices and the other fence is guarded: it must not change.
#[derive(Clone, Copy, Debug)]
pub struct Shape {
    pub words: usize,
    pub bytes: usize,
    pub at_end: bool,
}

impl Shape {
    fn place(&self, lent: usize, most: usize) -> Range<usize> {
        if self.at_end {
            most - lent..most
        } else {
            0..lent
        }
    }

    fn words(&self) -> Range<usize> {
        self.place(self.words, MOST_WORDS)
    }

    fn bytes(&self) -> Range<usize> {
        self.place(self.bytes, MOST_BYTES)
    }
}

const fn shape(more_words: usize, more_bytes: usize, at_end: bool) -> Shape {
    Shape { words: CONTENTS_WORDS + more_words, bytes: BODIES_BYTES + more_bytes, at_end }
}

/// Buffers that are long enough: just so, or longer.
pub const SHAPES: [Shape; 8] = [
    shape(0, 0, true),
    shape(0, 0, false),
    shape(1, 0, true),
    shape(0, 1, false),
    shape(0, 0, true),
    shape(7, 7, false),
    shape(MOST_WORDS - CONTENTS_WORDS, 0, false),
    shape(0, MOST_BYTES - BODIES_BYTES, true),
];

/// One reading of a family in so many finds garbage in its buffers, the others what the reading before left. No
/// divisor of the number of shapes, so that each shape has its garbage.
const GARBAGE_OF: usize = 5;

pub struct Both {
    calls: Calls,
    text: Fenced,
    start_up: StartUpRoom,
    archive: Fenced,
    contents: Fenced,
    bodies: Fenced,
    models_contents: Vec<u16>,
    models_bodies: Vec<u8>,
    /// What the buffers hold before a call, from a place that is another each time.
    garbage: Vec<u8>,
    turn: usize,
    lent: Shape,
    /// Whether the buffers and all around them were found to be as the model's, and nobody has written since.
    is_level: bool,
}

impl Both {
    pub fn new(calls: Calls) -> Self {
        let draw = &mut Draw::new(0, "garbage");
        Self {
            calls,
            text: Fenced::new(TEXT_PAGES),
            start_up: StartUpRoom::new(TEXT_PAGES),
            archive: Fenced::new(TEXT_PAGES),
            contents: Fenced::new(CONTENTS_PAGES),
            bodies: Fenced::new(BODIES_PAGES),
            models_contents: vec![0; MOST_WORDS],
            models_bodies: vec![0; MOST_BYTES],
            garbage: (0..3 * MOST_BYTES).map(|_| draw.byte()).collect(),
            turn: 0,
            lent: SHAPES[0],
            is_level: false,
        }
    }

    /// Compares one reading of many, with buffers lent in the next of the shapes.
    pub fn compare(&mut self, source: &Source) -> Result<Answer, String> {
        self.turn += 1;
        if !self.is_level || self.turn % GARBAGE_OF == 0 {
            self.fill();
        }
        self.compare_as_it_is(source, SHAPES[self.turn % SHAPES.len()])
    }

    /// Compares one reading with buffers lent like this, full of garbage.
    pub fn compare_in(&mut self, source: &Source, shape: Shape) -> Result<Answer, String> {
        self.fill();
        self.compare_as_it_is(source, shape)
    }

    fn compare_as_it_is(&mut self, source: &Source, shape: Shape) -> Result<Answer, String> {
        let word = self.call_as_it_is(source, shape)?;
        let answer = self.models_read(source);
        if word != word_of(answer) {
            return Err(format!("the port answers {}, the model {}", shown(word), shown(word_of(answer))));
        }
        self.same_buffers()?;
        self.is_level = true;
        Ok(answer)
    }

    /// Has the model read into its buffers.
    pub fn models_read(&mut self, source: &Source) -> Answer {
        let (words, bytes) = (self.lent.words(), self.lent.bytes());
        let (contents, bodies) = (&mut self.models_contents[words], &mut self.models_bodies[bytes]);
        match image::read(contents, bodies, &source.texts(), &source.archive, source.depth) {
            Ok(accepted) => Ok((accepted.entries, accepted.opens)),
            Err(refusal) => Err(refusal.number()),
        }
    }

    /// Buffers for another call that reads, full of garbage.
    pub fn lend(&mut self, shape: Shape) -> (&mut [u16], &mut [u8]) {
        self.turn += 1;
        self.lent = shape;
        self.fill();
        (&mut self.contents.words()[shape.words()], &mut self.bodies.bytes()[shape.bytes()])
    }

    /// Has the port read into buffers full of garbage, and gives the word that it returns.
    pub fn call(&mut self, source: &Source, shape: Shape) -> Result<u64, String> {
        self.fill();
        self.call_as_it_is(source, shape)
    }

    fn call_as_it_is(&mut self, source: &Source, shape: Shape) -> Result<u64, String> {
        self.lent = shape;
        self.is_level = false;
        let (contents, bodies) = (&mut self.contents.words()[shape.words()], &mut self.bodies.bytes()[shape.bytes()]);
        // What is too long for the fenced memory is lent where it is.
        let archive = self.archive.copy(&source.archive, shape.at_end).unwrap_or(&source.archive);
        let (word, is_same) = match &source.start {
            Start::Text(bytes) => {
                let text = self.text.copy(bytes, shape.at_end).unwrap_or(bytes);
                let word = match source.depth {
                    GREATEST_DEPTH => (self.calls.read)(text, archive, contents, bodies),
                    DEFAULT_DEPTH if self.turn % 2 == 0 => (self.calls.read_plain)(text, archive, contents, bodies),
                    depth => (self.calls.read_depth)(text, archive, depth, contents, bodies),
                };
                (word, text == &bytes[..])
            }
            Start::Chain(start_up) => {
                let lent = self.start_up.lend(start_up, shape.at_end);
                let edited = (self.calls.edit)(lent);
                let word = match source.depth {
                    GREATEST_DEPTH => (self.calls.read_default)(&edited, archive, contents, bodies),
                    depth => (self.calls.read_default_depth)(&edited, archive, depth, contents, bodies),
                };
                (word, holds(&lent, start_up))
            }
        };
        if !is_same || archive != &source.archive[..] {
            return Err("the port changed what it reads".to_string());
        }
        Ok(word)
    }

    /// Puts garbage wherever a buffer may stand, the same for both.
    fn fill(&mut self) {
        self.is_level = false;
        let from = self.turn.wrapping_mul(62_989) % (2 * MOST_BYTES);
        let garbage = &self.garbage[from..];
        self.contents.bytes().copy_from_slice(&garbage[..2 * MOST_WORDS]);
        self.models_contents.copy_from_slice(self.contents.words());
        self.bodies.bytes().copy_from_slice(&garbage[..MOST_BYTES]);
        self.models_bodies.copy_from_slice(&garbage[..MOST_BYTES]);
    }

    /// Lends both an image that no reading made.
    pub fn put_image(&mut self, contents: &[u16], bodies: &[u8], at_end: bool) {
        self.turn += 1;
        self.lent = Shape { words: contents.len(), bytes: bodies.len(), at_end };
        self.fill();
        let (words, bytes) = (self.lent.words(), self.lent.bytes());
        for image in [self.contents.words(), &mut self.models_contents] {
            image[words.clone()].copy_from_slice(contents);
        }
        for image in [self.bodies.bytes(), &mut self.models_bodies] {
            image[bytes.clone()].copy_from_slice(bodies);
        }
    }

    /// The port's buffers as they were lent last.
    pub fn image(&mut self) -> (&[u16], &[u8]) {
        let (words, bytes) = (self.lent.words(), self.lent.bytes());
        (&self.contents.words()[words], &self.bodies.bytes()[bytes])
    }

    /// The same, for a call that writes them.
    pub fn image_mut(&mut self) -> (&mut [u16], &mut [u8]) {
        self.is_level = false;
        let (words, bytes) = (self.lent.words(), self.lent.bytes());
        (&mut self.contents.words()[words], &mut self.bodies.bytes()[bytes])
    }

    pub fn models_image_mut(&mut self) -> (&mut [u16], &mut [u8]) {
        let (words, bytes) = (self.lent.words(), self.lent.bytes());
        (&mut self.models_contents[words], &mut self.models_bodies[bytes])
    }

    /// The model's buffers, lent likewise.
    pub fn models_image(&self) -> (&[u16], &[u8]) {
        (&self.models_contents[self.lent.words()], &self.models_bodies[self.lent.bytes()])
    }

    /// The port's buffers, and all around them, are as the model's.
    pub fn same_buffers(&mut self) -> Result<(), String> {
        let (words, bytes) = (self.lent.words(), self.lent.bytes());
        let lent = self.lent;
        let differs = |what: &str, at: isize, port: u16, model: u16| {
            Err(format!("{what} {at} is {port:#x} by the port, {model:#x} by the model, with buffers lent as {lent:?}"))
        };
        if self.contents.words() != &self.models_contents[..] {
            let at = first_difference(self.contents.words(), &self.models_contents);
            let place = at as isize - words.start as isize;
            return differs("word", place, self.contents.words()[at], self.models_contents[at]);
        }
        if self.bodies.bytes() != &self.models_bodies[..] {
            let at = first_difference(self.bodies.bytes(), &self.models_bodies);
            let place = at as isize - bytes.start as isize;
            return differs("byte", place, self.bodies.bytes()[at].into(), self.models_bodies[at].into());
        }
        Ok(())
    }

    /// What the port left of the entries of an accepted reading: keys and values, by the words of the
    /// contents alone.
    pub fn entries(&mut self) -> Vec<(&[u8], &[u8])> {
        let (contents, bodies) = self.image();
        let rows = contents[2..].chunks(ROW_WORDS).take(contents[0].into());
        rows.map(|row| {
            let [start, key, value] = [row[0], row[1], row[2]].map(usize::from);
            (&bodies[start..start + key], &bodies[start + key..start + key + value])
        })
        .collect()
    }
}

fn first_difference<T: PartialEq>(a: &[T], b: &[T]) -> usize {
    a.iter().zip(b).position(|(a, b)| a != b).expect("a difference")
}

/// The word that the call returns for an answer.
pub fn word_of(answer: Answer) -> u64 {
    match answer {
        Ok((entries, opens)) => (entries as u64) << 16 | (opens as u64) << 32,
        Err(number) => number.into(),
    }
}

pub fn shown(word: u64) -> String {
    let bits = |from: u32| (word >> from) as u16;
    match (bits(0), word >> 16) {
        (0, _) if bits(48) == 0 => format!("{} entries and {} opens", bits(16), bits(32)),
        (number, 0) => format!("refused {number}"),
        _ => format!("the word {word:#x}"),
    }
}
