// Made by tools/rust of crates/acquisition/src/ring_pairs.rt: change that.
//! Rings of chips for two parts at once, and for two chips at once.

use crate::acquisition::chip_ring::{ChipRing, RING};
use crate::acquisition::half_chip_table::LAST;

impl ChipRing {
    /// Makes each entry the pair of what it was and of the entry of another ring.
    pub(crate) fn pair_with(&mut self, second: &ChipRing) {
        for i in 0..RING {
            self.chips[i] = pair(self.chips[i], second.chips[i]);
        }
    }

    /// Makes each entry the sum of two chips that follow one another, from a ring of single chips.
    pub(crate) fn set_twos(&mut self, one: &ChipRing) {
        for i in 0..RING {
            self.chips[i] = one.with_next(i);
        }
    }

    /// The sum of a chip's entry and that of the next chip, which lies two places before it.
    #[inline(always)]
    fn with_next(&self, i: usize) -> u32 {
        let next = if i < 2 { i + LAST - 1 } else { i - 2 };
        self.chips[i].wrapping_add(self.chips[next])
    }
}

/// Two numbers in one, modulo 2^32.
#[inline(always)]
pub(crate) fn pair(first: u32, second: u32) -> u32 {
    first.wrapping_add(second.wrapping_mul(1 << 16))
}
