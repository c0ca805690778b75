// Made by tools/rust of crates/frame_sync/src/last_bits.rt: change that.
//! The bits that were pushed last.

use crate::frame_sync::subframe::{SUBFRAME_WORDS, Subframe};
use crate::nav_parity::check;

/// The bits that a window keeps.
pub const WINDOW_BITS: u32 = 64;

/// The bits that a word is checked with: its own and the two before it (IS-GPS-200, section
/// 20.3.5).
pub const CHECKED_BITS: u32 = 32;

/// The last 64 bits, the newest lowest, with 0 in place of those before the first.
#[derive(Clone, Copy, Debug)]
pub(crate) struct LastBits {
    bits: u64,
}

impl LastBits {
    pub(crate) fn new() -> Self {
        LastBits { bits: 0 }
    }

    pub(crate) fn push(&mut self, bit: bool) {
        self.bits = (self.bits << 1) | u64::from(bit);
    }

    /// The header that the newest 60 bits are, if they are one, as a subframe with no further word:
    /// two words that pass, the first with the preamble, the second with an ID of 1 to 5
    /// (IS-GPS-200, sections 20.3.3.1 and 20.3.3.2).
    pub(crate) fn header(&self) -> Option<Subframe> {
        if !self.is_framed() {
            return None;
        }
        let mut words = [None; SUBFRAME_WORDS];
        words[0] = self.word(30);
        words[1] = self.word(0);
        Subframe::from_words(words)
    }

    /// Whether the two bits before the newest 60 are equal, and the last two are the same. Word 2
    /// is sent with 0, 0 at its end, and so is word 10 of the subframe before; a receiver may see
    /// all four inverted (IS-GPS-200, section 20.3.3.2).
    fn is_framed(&self) -> bool {
        let before = self.number(60, 2);
        (before == 0 || before == 3) && self.number(0, 2) == before
    }

    /// The data of the word that ends this many bits before the newest one, where it passes with
    /// the two bits before it (IS-GPS-200, section 20.3.5).
    pub(crate) fn word(&self, behind: u32) -> Option<u32> {
        let word = self.number(behind, 30);
        let prior = self.number(behind + 30, 2);
        check(word as u32, prior as u8)
    }

    /// The number that `count` bits write, the last of which came this many bits before the newest
    /// of all.
    fn number(&self, behind: u32, count: u32) -> u64 {
        (self.bits >> behind) & ((1 << count) - 1)
    }
}
