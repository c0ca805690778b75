// Made by tools/rust of crates/oscillators/src/chip_set.rt: change that.
//! Chips in which 64 samples lie, by their numbers.

use crate::kit::lanes::*;

/// The chips in which 64 samples lie where they lie half a chip further than before, and the chips
/// in which they lay before.
#[derive(Clone, Copy, Debug)]
pub(crate) struct ChipSet {
    further: u8x64,
    /// What makes of those chips the ones half a chip before, by exclusive or.
    turns: u8x64,
}

impl ChipSet {
    /// The chips of samples that lay `more` half chips after others.
    #[inline(always)]
    pub(crate) fn new(half: u8x64, more: u8) -> ChipSet {
        let further = chips_after(half, more + 1);
        ChipSet {
            further,
            turns: further ^ chips_after(half, more),
        }
    }

    /// The chips of the samples. They lie where they lay before in lanes whose mask is 255.
    #[inline(always)]
    pub(crate) fn kept(&self, stays: u8x64) -> u8x64 {
        self.further ^ (self.turns & stays)
    }
}

/// The chips that lie some half chips after others, all by their numbers.
#[inline(always)]
fn chips_after(half: u8x64, more: u8) -> u8x64 {
    (half + u8x64::splat(more)) >> u8x64::splat(1)
}
