// Made by tools/rust of crates/oscillators/src/code_words.rt: change that.
//! A code in words of 64 samples.

use crate::oscillators::code::in_cycle;
use crate::oscillators::code_strides::{CodeStrides, HALF_CHIP};
use crate::bit_planes::{TOP_BIT, WORD_PLACES, bit_of_each};
use crate::ca_codes::{TABLE, look_up};
use crate::kit::lanes::*;

/// A chip, in 2^-32 chip.
const CHIP: u64 = 1 << 32;

/// The greatest step with which sixteen samples take at most fifteen chips and a half, wherever
/// their window begins, in 2^-32 chip: 9/10 of a chip.
pub const MOST_WINDOW_STEP: u32 = 0xe666_6666;

/// A code in words of 64 samples, the next one first. `CodeOsc::words` begins them, and they leave
/// the oscillator where it is. The phase and the step are as an oscillator has them.
#[derive(Debug)]
pub struct CodeWords<'a> {
    phase: u64,
    step: u32,
    strides: &'a CodeStrides,
}

impl<'a> CodeWords<'a> {
    /// The words of a code from a phase on, with the strides of its step.
    #[inline(always)]
    pub(crate) fn new(phase: u64, step: u32, strides: &'a CodeStrides) -> CodeWords<'a> {
        CodeWords {
            phase,
            step,
            strides,
        }
    }

    /// Whether the step is at most `MOST_WINDOW_STEP`, as that of each recording is. Then
    /// `next_lanes_by_windows` gives the masks of chips too, in less time.
    pub fn has_windows(&self) -> bool {
        self.step <= MOST_WINDOW_STEP
    }

    /// Masks of the chips of a satellite at this sample and the 63 that follow: at the phase
    /// (prompt), half a chip ahead of it (early) and half a chip behind it (late). The table is one
    /// that `CodeBook::table` gives. The words go on.
    #[inline(always)]
    pub fn next_lanes(&mut self, table: &[u8; TABLE]) -> ChipLanes {
        self.next_masks(table)
    }

    /// What `next_lanes` gives, in less time: a window of sixteen chips serves sixteen samples.
    #[inline(always)]
    pub fn next_lanes_by_windows(&mut self, table: &[u8; TABLE]) -> ChipLanes {
        let masks = self.masks_by_windows(table);
        self.pass_word();
        masks
    }

    /// The chips as bits of words. The words go on.
    pub(crate) fn next_chips(&mut self, table: &[u8; TABLE]) -> ChipWord {
        let masks = self.next_masks(table);
        ChipWord {
            early: bit_of_each(masks.early, TOP_BIT),
            prompt: bit_of_each(masks.prompt, TOP_BIT),
            late: bit_of_each(masks.late, TOP_BIT),
        }
    }

    /// Does what `next_lanes` does. Contracts see the masks by the chips here, and by their signs
    /// there.
    #[inline(always)]
    fn next_masks(&mut self, table: &[u8; TABLE]) -> ChipLanes {
        let masks = if self.step <= MOST_WINDOW_STEP {
            self.masks_by_windows(table)
        } else {
            self.masks_by_samples(table)
        };
        self.pass_word();
        masks
    }

    /// Goes on by the 64 samples of a word.
    #[inline(always)]
    fn pass_word(&mut self) {
        self.phase = in_cycle(self.phase + 64 * self.step as u64);
    }

    /// The masks of this sample and the 63 that follow, sixteen of them by a window of sixteen
    /// chips each.
    #[inline(always)]
    fn masks_by_windows(&self, table: &[u8; TABLE]) -> ChipLanes {
        let ahead = in_cycle(self.phase + HALF_CHIP as u64);
        let chip = chip_number(ahead);
        let chips = self.strides.chips((ahead % CHIP) as u32);
        let windows = self.strides.windows(chip);
        ChipLanes {
            // A look-up finds the chips before those of its numbers.
            early: look_up(table, self.strides.windows(chip + 1), chips.early),
            prompt: look_up(table, windows, chips.prompt),
            late: look_up(table, windows, chips.early),
        }
    }

    /// The masks of this sample and the 63 that follow, one after another, for steps so long that
    /// sixteen samples can take more than sixteen chips. No rate of a recording has such a step.
    #[inline(always)]
    fn masks_by_samples(&self, table: &[u8; TABLE]) -> ChipLanes {
        let mut early = [0; WORD_PLACES];
        let mut prompt = [0; WORD_PLACES];
        let mut late = [0; WORD_PLACES];
        for k in 0..WORD_PLACES {
            let here = in_cycle(self.phase + (63 - k as u64) * self.step as u64);
            let ahead = chip_number(in_cycle(here + HALF_CHIP as u64));
            // The table has the chip before each.
            early[k] = table[ahead + 1];
            prompt[k] = table[chip_number(here) + 1];
            late[k] = table[ahead];
        }
        ChipLanes {
            early: u8x64::from_array(early),
            prompt: u8x64::from_array(prompt),
            late: u8x64::from_array(late),
        }
    }
}

/// The chips of a satellite at 64 samples, the first of them in the top bits.
#[derive(Clone, Copy, Debug)]
pub(crate) struct ChipWord {
    /// The chips half a chip ahead of the phase.
    pub(crate) early: u64,
    /// The chips at the phase.
    pub(crate) prompt: u64,
    /// The chips half a chip behind the phase.
    pub(crate) late: u64,
}

/// Masks of the chips of a satellite at 64 samples, 255 for chip 1 and 0 for chip 0. Lane k stands
/// for sample 63 - k.
#[derive(Clone, Copy, Debug)]
pub struct ChipLanes {
    /// The chips half a chip ahead of the phase.
    pub early: u8x64,
    /// The chips at the phase.
    pub prompt: u8x64,
    /// The chips half a chip behind the phase.
    pub late: u8x64,
}

/// The number of the chip that a phase lies in, counted on past the end of a cycle.
fn chip_number(phase: u64) -> usize {
    (phase >> 32) as usize
}
