// Made by tools/rust of crates/oscillators/src/code_strides.rt: change that.
//! 64 samples of a code at once.

use crate::oscillators::carries::{HALF, ORDER, carries, signed_half};
use crate::oscillators::chip_set::ChipSet;
use crate::bit_planes::WORD_PLACES;
use crate::kit::lanes::*;

/// Half a chip, in 2^-32 chip.
pub const HALF_CHIP: u32 = 1 << 31;

/// The sets of chips: those in which the whole half chips of ways end from the first half of a chip
/// on, and those one half chip and two half chips further.
const CHIP_SETS: usize = 3;

/// The most chips that lie between the first sample and a window.
const MOST_CHIPS: usize = 47;

/// What half a chip is in 2^-16 chip.
const HALF_OF_HALF: u32 = 1 << 15;

/// How far 64 samples lie from the first of them, in half chips: lane k stands for sample 63 - k.
///
/// Each sixteen samples have a window of chips. It begins at the chip that the first of them lies
/// in where the first sample of all begins a chip. A lane has the number of its chip there.
#[derive(Clone, Copy, Debug)]
pub(crate) struct CodeStrides {
    /// The chips from the first sample on to the windows of sixteen lanes each.
    windows: [usize; 4],
    /// The three sets of chips.
    sets: [ChipSet; CHIP_SETS],
    /// What else a half chip has room for: the part of it that is left, less one. Of that the upper
    /// half, in `ORDER`.
    room_high: i16x64,
    /// The lower half, in `ORDER`.
    room_low: i16x64,
}

impl CodeStrides {
    /// The strides of a step.
    pub(crate) fn new(step: u32) -> CodeStrides {
        let mut half = [0; WORD_PLACES];
        let mut high = [0; WORD_PLACES];
        let mut low = [0; WORD_PLACES];
        for k in 0..WORD_PLACES {
            let samples = 63 - k as u32;
            let way = way(samples, step);
            half[k] = (way / HALF_OF_HALF - 2 * window(samples / 16 * 16, step)) as u8;
            high[k] = (HALF_OF_HALF - 1 - way % HALF_OF_HALF) as i16;
            low[k] = signed_half(HALF - 1 - samples * (step % HALF) % HALF);
        }
        let half = u8x64::from_array(half);
        CodeStrides {
            windows: [
                window(48, step) as usize,
                window(32, step) as usize,
                window(16, step) as usize,
                0,
            ],
            sets: [
                ChipSet::new(half, 0),
                ChipSet::new(half, 1),
                ChipSet::new(half, 2),
            ],
            room_high: i16x64::from_array(high).swizzle(ORDER),
            room_low: i16x64::from_array(low).swizzle(ORDER),
        }
    }

    /// The chips at which the windows begin, the first sample of all lying in a chip.
    #[inline(always)]
    pub(crate) fn windows(&self, chip: usize) -> [usize; 4] {
        [
            chip + self.windows[0],
            chip + self.windows[1],
            chip + self.windows[2],
            chip + self.windows[3],
        ]
    }

    /// The chips in which 64 samples lie, by how far the first of them lies in its chip.
    #[inline(always)]
    pub(crate) fn chips(&self, part: u32) -> WindowChips {
        let set = (part / HALF_CHIP) as usize;
        let stays = self.stays(part % HALF_CHIP);
        WindowChips {
            early: self.sets[set].kept(stays),
            prompt: self.sets[set + 1].kept(stays),
        }
    }

    /// 0 in the lanes of the samples that lie in one half chip more, since the first of them is
    /// further in its half chip than there is room for, and 255 in the others.
    #[inline(always)]
    fn stays(&self, part: u32) -> u8x64 {
        assert!(
            part < HALF_CHIP,
            "CodeStrides::stays requires part < HALF_CHIP"
        );
        let left = self.room_high - carries(part % HALF, self.room_low).cast::<i16>();
        left.simd_gt(i16x64::splat((part / HALF) as i16 - 1))
            .select(u16x64::splat(255), u16x64::splat(0))
            .cast::<u8>()
            .swizzle(ORDER)
    }
}

/// The chips in which 64 samples lie, by their numbers in windows.
#[derive(Clone, Copy, Debug)]
pub(crate) struct WindowChips {
    /// The chips at the early phase, from the chip on at which a window begins.
    pub(crate) early: u8x64,
    /// The chips at the prompt phase, half a chip less, from the chip before that one on.
    pub(crate) prompt: u8x64,
}

/// The way of at most 63 samples, in 2^-16 chip, rounded down.
fn way(samples: u32, step: u32) -> u32 {
    samples * (step / HALF) + samples * (step % HALF) / HALF
}

/// The whole chips of the way of at most 63 samples.
fn window(samples: u32, step: u32) -> u32 {
    way(samples, step) / HALF
}
