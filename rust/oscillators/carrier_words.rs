// Made by tools/rust of crates/oscillators/src/carrier_words.rt: change that.
//! A carrier in words of 64 samples.

use crate::oscillators::carrier_strides::CarrierStrides;
use crate::bit_planes::bit_of_each;
use crate::kit::lanes::*;

/// A carrier in words of 64 samples, the next one first. `CarrierOsc::words` begins them, and they
/// leave the oscillator where it is. The phase and the step are as an oscillator has them.
#[derive(Debug)]
pub struct CarrierWords<'a> {
    phase: u32,
    step: u32,
    strides: &'a CarrierStrides,
}

impl<'a> CarrierWords<'a> {
    /// The words of a carrier from a phase on, with the strides of its step.
    #[inline(always)]
    pub(crate) fn new(phase: u32, step: u32, strides: &'a CarrierStrides) -> CarrierWords<'a> {
        CarrierWords {
            phase,
            step,
            strides,
        }
    }

    /// The eighths of a cycle in which this sample and the 63 that follow lie, by their numbers, 0
    /// to 7. Lane k stands for sample 63 - k. The words go on.
    #[inline(always)]
    pub fn next_eighths(&mut self) -> u8x64 {
        let eighths = self.strides.eighths(self.phase);
        self.phase = self.phase.wrapping_add(self.step.wrapping_mul(64));
        eighths
    }

    /// The bits of cosine and sine at this sample and the 63 that follow. The words go on.
    #[inline(always)]
    pub(crate) fn next_bits(&mut self) -> CarrierWord {
        let eighths = self.next_eighths();
        let half = bit_of_each(eighths, 2);
        let quarter = bit_of_each(eighths, 1);
        let eighth = bit_of_each(eighths, 0);
        CarrierWord {
            cos_sign: half ^ quarter,
            sin_sign: half,
            sin_size: quarter ^ eighth,
        }
    }
}

/// Cosine and sine of a carrier at 64 samples, the first of them in the top bits.
#[derive(Clone, Copy, Debug)]
pub(crate) struct CarrierWord {
    /// 1 where the cosine is below 0.
    pub(crate) cos_sign: u64,
    /// 1 where the sine is below 0.
    pub(crate) sin_sign: u64,
    /// 1 where the sine is 2 in size and the cosine 1, and 0 where it is the other way round.
    pub(crate) sin_size: u64,
}
