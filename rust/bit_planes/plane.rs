// Made by tools/rust of crates/bit_planes/src/plane.rt: change that.
//! A bit for each sample of a run.

/// The places of a plane.
pub const PLACES: usize = 1024;

/// The places of a word of a plane.
pub const WORD_PLACES: usize = 64;

/// The words of 64 places of a plane.
pub const WORDS: usize = 16;

/// A bit for each of 1,024 places.
#[derive(Clone, Copy, Debug)]
pub struct Plane {
    /// Place i is in word i / 64, the first place of a word being its top bit.
    words: [u64; WORDS],
}

impl Plane {
    /// A plane of which all bits are 0.
    pub fn new() -> Plane {
        Plane { words: [0; WORDS] }
    }

    /// Sets the 64 places from `64 * w` on. They and all places after them are 0 before. The first
    /// of them is the top bit.
    pub fn set_word(&mut self, w: usize, word: u64) {
        self.words[w] = word;
    }

    /// The bit at a place, 0 or 1.
    pub fn bit(&self, place: usize) -> u64 {
        (self.words[place / 64] >> (63 - place % 64)) & 1
    }
}
