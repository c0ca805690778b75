// Made by tools/rust of crates/sample_planes/src/part.rt: change that.
//! One part of a run of samples, in phase or in quadrature, as codes of its signs and sizes.

use crate::sample_planes::planes::MAX_SAMPLES;
use crate::bit_planes::WORDS;
use crate::kit::lanes::*;

/// The greatest size of a part of a sample, that of a part with a magnitude of 1.
pub const MOST_SIZE: u8 = 3;

/// The parts in phase, or those in quadrature, of a run of samples.
pub(crate) struct Part {
    /// A code for each of them: 4 where it is below 0, and 8 more where it is 3 in size. Place
    /// `64 * w + k` is that of sample `64 * w + 63 - k`.
    codes: [u8; MAX_SAMPLES],
}

impl Part {
    /// The parts of samples that are not known yet.
    pub(crate) fn new() -> Part {
        Part {
            codes: [0; MAX_SAMPLES],
        }
    }

    /// Sets the parts of the 64 samples from `64 * w` on by their codes, that of the first in the
    /// last lane.
    #[inline(always)]
    pub(crate) fn put(&mut self, w: usize, codes: u8x64) {
        assert!(w < WORDS, "Part::put requires w < WORDS");
        codes.copy_to_slice(&mut self.codes[64 * w..]);
    }

    /// The part of sample `i`: 1 or -1, and of two bits also 3 or -3.
    pub(crate) fn value(&self, i: usize) -> i8 {
        let code = self.codes[64 * (i / 64) + (63 - i % 64)];
        let size = (1 + 2 * (code / 8)) as i8;
        // A processor can't predict a sample's value. So this is a form that needs no branch.
        if code / 4 % 2 == 0 { size } else { -size }
    }

    /// Codes of the parts of the samples from `64 * w` on: 4 for a part below 0, and 8 more for one
    /// that is 3 in size. Lane k stands for sample `64 * w + 63 - k`.
    #[inline(always)]
    pub(crate) fn codes(&self, w: usize) -> u8x64 {
        assert!(w < WORDS, "Part::codes requires w < WORDS");
        u8x64::from_slice_at(&self.codes, 64 * w)
    }
}
