//! A small generator of numbers (SplitMix64), the same on every machine.

pub struct Draw(u64);

impl Draw {
    /// A stream of its own for each use, so that one use more or less moves no other.
    pub fn new(seed: u64, stream: &str) -> Self {
        let mut draw = Self(seed);
        for b in stream.bytes() {
            draw.0 = draw.next() ^ u64::from(b);
        }
        draw
    }

    pub fn next(&mut self) -> u64 {
        self.0 = self.0.wrapping_add(0x9E37_79B9_7F4A_7C15);
        let mut z = self.0;
        z = (z ^ (z >> 30)).wrapping_mul(0xBF58_476D_1CE4_E5B9);
        z = (z ^ (z >> 27)).wrapping_mul(0x94D0_49BB_1331_11EB);
        z ^ (z >> 31)
    }

    /// A number under `n`.
    pub fn below(&mut self, n: usize) -> usize {
        (self.next() % n as u64) as usize
    }

    /// A number from `low` to `high`, both included.
    pub fn between(&mut self, low: usize, high: usize) -> usize {
        low + self.below(high - low + 1)
    }

    pub fn one_in(&mut self, n: usize) -> bool {
        self.below(n) == 0
    }

    pub fn byte(&mut self) -> u8 {
        self.below(256) as u8
    }

    pub fn pick<'a, T: ?Sized>(&mut self, of: &[&'a T]) -> &'a T {
        of[self.below(of.len())]
    }

    pub fn pick_byte(&mut self, of: &[u8]) -> u8 {
        of[self.below(of.len())]
    }
}
