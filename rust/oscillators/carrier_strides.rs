// Made by tools/rust of crates/oscillators/src/carrier_strides.rt: change that.
//! 64 samples of a carrier at once.

use crate::oscillators::carries::{HALF, ORDER, carries, signed_half};
use crate::bit_planes::WORD_PLACES;
use crate::kit::lanes::*;

/// How many of a phase's bits lie below the number of its eighth, in the phase's upper half.
const BELOW_EIGHTHS: u16 = 13;

/// How far 64 samples lie from the first of them, in 2^-32 cycle and but for whole cycles: lane k
/// stands for sample 63 - k. The halves of these ways stand in `ORDER`.
#[derive(Clone, Copy, Debug)]
pub(crate) struct CarrierStrides {
    /// The upper halves.
    high: u16x64,
    /// The room that the lower halves leave: 65,535 less each of them.
    room: i16x64,
}

impl CarrierStrides {
    /// The strides of a step.
    pub(crate) fn new(step: u32) -> CarrierStrides {
        let mut high = [0; WORD_PLACES];
        let mut room = [0; WORD_PLACES];
        for k in 0..WORD_PLACES {
            let way = (63 - k as u32).wrapping_mul(step);
            high[k] = (way / HALF) as u16;
            room[k] = signed_half(HALF - 1 - way % HALF);
        }
        CarrierStrides {
            high: u16x64::from_array(high).swizzle(ORDER),
            room: i16x64::from_array(room).swizzle(ORDER),
        }
    }

    /// The eighths of a cycle in which 64 samples lie, the first of them at a phase: 0 to 7.
    #[inline(always)]
    pub(crate) fn eighths(&self, phase: u32) -> u8x64 {
        let carried = carries(phase % HALF, self.room);
        let high = self.high + u16x64::splat((phase / HALF) as u16) + carried;
        (high >> u16x64::splat(BELOW_EIGHTHS))
            .cast::<u8>()
            .swizzle(ORDER)
    }
}
