// Made by tools/rust of crates/acquisition/src/half_chip_walk.rt: change that.
//! The half chips of a code at which samples lie.

use crate::oscillators::in_cycle;

/// Half a chip, in 2^-32 chip.
const HALF_CHIP: u64 = crate::oscillators::HALF_CHIP as u64;

/// A walk from sample to sample along the half chips of a code. It stands at a half chip while it
/// passes the samples that lie there, and knows how many of them are left.
#[derive(Clone, Copy, Debug)]
pub(crate) struct HalfChipWalk {
    /// The half chip at which the next sample lies.
    pub(crate) place: usize,
    /// How many samples lie there from the next one on.
    pub(crate) left: usize,
    /// The code's phase at the sample after them, in 2^-32 chip.
    next: u64,
    /// How far a sample takes the code.
    step: u64,
    /// How many whole steps there are in a half chip. The samples at a half chip are as many or one
    /// more, or else one.
    whole: usize,
    /// How far these take the code.
    whole_way: u64,

    // The sample before lies at an earlier half chip.
}

impl HalfChipWalk {
    /// A walk along samples, the next of which is at phase `code` of the code. Each takes the code
    /// `step` on.
    pub(crate) fn new(code: u64, step: u32) -> HalfChipWalk {
        let step = u64::from(step);
        let whole = HALF_CHIP / step;
        let left = (HALF_CHIP - code % HALF_CHIP).div_ceil(step);
        HalfChipWalk {
            place: (code / HALF_CHIP) as usize,
            left: left as usize,
            next: in_cycle(code + left * step),
            step,
            whole: whole as usize,
            whole_way: whole * step,
        }
    }

    /// Passes so many of the samples that are left at the half chip.
    #[inline(always)]
    pub(crate) fn pass(&mut self, len: usize) {
        if len < self.left {
            self.left -= len;
        } else {
            self.go_on();
        }
    }

    /// Goes on to the next half chip at which samples lie.
    #[inline(always)]
    fn go_on(&mut self) {
        let place = self.next / HALF_CHIP;
        self.place = place as usize;
        let far = self.next + self.whole_way;
        if far / HALF_CHIP == place {
            self.left = self.whole + 1;
            self.next = in_cycle(far + self.step);
        } else {
            self.left = self.whole;
            self.next = in_cycle(far);
        }
    }
}
