//! The two buffers of a board as the port has them, between fences, and as the model has them, both in the same garbage.

use crate::fenced::Fenced;
use cases::draw::Draw;
use model::limits::{BOARD_BYTES, BOARD_WORDS};
use std::ops::Range;

const WORD_PAGES: usize = 17;
const BYTE_PAGES: usize = 145;
const MOST_WORDS: usize = WORD_PAGES * 2048;
const MOST_BYTES: usize = BYTE_PAGES * 4096;

/// How the two buffers are lent: how long, and at which of the fences.
#[derive(Clone, Copy, Debug)]
pub struct Shape {
    pub words: usize,
    pub bytes: usize,
    pub at_end: bool,
}

const fn shape(more_words: usize, more_bytes: usize, at_end: bool) -> Shape {
    Shape { words: BOARD_WORDS + more_words, bytes: BOARD_BYTES + more_bytes, at_end }
}

/// Buffers that are long enough: just so, or longer.
pub const SHAPES: [Shape; 4] = [shape(0, 0, true), shape(0, 0, false), shape(1, 7, true), shape(1_000, 1_000, false)];

impl Shape {
    pub fn place(&self, lent: usize, most: usize) -> Range<usize> {
        if self.at_end {
            most - lent..most
        } else {
            0..lent
        }
    }
}

/// Words and bytes that are others at each place, so that what was moved is told from what stayed, and others at each use.
pub struct Garbage {
    words: Vec<u16>,
    bytes: Vec<u8>,
    uses: usize,
}

/// At so many places a use may begin.
const STARTS: usize = 4096;

impl Garbage {
    pub fn new(seed: u64) -> Self {
        let mut draw = Draw::new(seed, "garbage");
        let words = (0..MOST_WORDS + STARTS).map(|_| draw.next() as u16).collect();
        let bytes = (0..MOST_BYTES + STARTS).map(|_| draw.byte()).collect();
        Self { words, bytes, uses: 0 }
    }

    /// As much as the buffers may have, and more.
    pub fn next(&mut self) -> (&[u16], &[u8]) {
        self.uses += 1;
        let start = 61 * self.uses % STARTS;
        (&self.words[start..], &self.bytes[start..])
    }
}

pub struct Buffers {
    words: Fenced,
    bytes: Fenced,
    models_words: Vec<u16>,
    models_bytes: Vec<u8>,
    pub shape: Shape,
}

impl Buffers {
    pub fn new() -> Self {
        Self {
            words: Fenced::new(WORD_PAGES),
            bytes: Fenced::new(BYTE_PAGES),
            models_words: vec![0; MOST_WORDS],
            models_bytes: vec![0; MOST_BYTES],
            shape: SHAPES[0],
        }
    }

    /// Buffers like this, full of garbage, and as much around them.
    pub fn lend(&mut self, shape: Shape, (words, bytes): (&[u16], &[u8])) {
        for room in [self.words.words(), &mut self.models_words[..]] {
            room.copy_from_slice(&words[..MOST_WORDS]);
        }
        for room in [self.bytes.bytes(), &mut self.models_bytes[..]] {
            room.copy_from_slice(&bytes[..MOST_BYTES]);
        }
        self.shape = shape;
    }

    pub fn port(&mut self) -> (&mut [u16], &mut [u8]) {
        let (words, bytes) = self.places();
        (&mut self.words.words()[words], &mut self.bytes.bytes()[bytes])
    }

    pub fn model(&mut self) -> (&mut [u16], &mut [u8]) {
        let (words, bytes) = self.places();
        (&mut self.models_words[words], &mut self.models_bytes[bytes])
    }

    fn places(&self) -> (Range<usize>, Range<usize>) {
        (self.shape.place(self.shape.words, MOST_WORDS), self.shape.place(self.shape.bytes, MOST_BYTES))
    }

    /// Every word and byte, and those around what is lent.
    pub fn same(&mut self) -> Result<(), String> {
        let (words, bytes) = self.places();
        let differs = |at: Option<usize>, start: usize| format!("{} differs", at.unwrap_or(0) as isize - start as isize);
        if self.words.words() != &self.models_words[..] {
            let at = self.words.words().iter().zip(&self.models_words).position(|(port, model)| port != model);
            return Err(format!("word {}", differs(at, words.start)));
        }
        if self.bytes.bytes() != &self.models_bytes[..] {
            let at = self.bytes.bytes().iter().zip(&self.models_bytes).position(|(port, model)| port != model);
            return Err(format!("byte {}", differs(at, bytes.start)));
        }
        Ok(())
    }
}
