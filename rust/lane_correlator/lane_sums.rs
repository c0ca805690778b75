// Made by tools/rust of crates/lane_correlator/src/lane_sums.rt: change that.
//! Two sums of products, in lanes of bytes.

use crate::kit::lanes::*;

/// The lanes of a sum. Each takes two places of a word.
pub(crate) const HALF: usize = 32;

/// The most that the lanes of a sum come to.
pub(crate) const MOST_OF_LANES: u32 = 4_096;

/// Sums in phase and in quadrature, spread over lanes of bytes, modulo 256.
#[derive(Clone, Copy, Debug)]
pub(crate) struct LaneSums {
    i: u8x32,
    q: u8x32,
}

impl LaneSums {
    /// The sums over no samples.
    pub(crate) fn none() -> LaneSums {
        LaneSums {
            i: u8x32::splat(0),
            q: u8x32::splat(0),
        }
    }

    /// Adds the numbers of 64 lanes, lanes 0 to 31 and then lanes 32 to 63.
    #[inline(always)]
    pub(crate) fn add(self, i: u8x64, q: u8x64) -> LaneSums {
        LaneSums {
            i: self.i + low_half(i) + high_half(i),
            q: self.q + low_half(q) + high_half(q),
        }
    }

    /// The sum in phase with chips, where `turned` has the products whose chips are -1, and these
    /// sums have all products.
    #[inline(always)]
    pub(crate) fn in_phase(&self, turned: &LaneSums) -> i32 {
        sum_of_lanes(self.i, turned.i)
    }

    /// The sum in quadrature with chips, as `in_phase` gives that in phase.
    #[inline(always)]
    pub(crate) fn quadrature(&self, turned: &LaneSums) -> i32 {
        sum_of_lanes(self.q, turned.q)
    }
}

/// Lanes 0 to 31.
#[inline(always)]
fn low_half(lanes: u8x64) -> u8x32 {
    lanes.extract::<0, HALF>()
}

/// Lanes 32 to 63.
#[inline(always)]
fn high_half(lanes: u8x64) -> u8x32 {
    lanes.extract::<HALF, HALF>()
}

/// The sum of lanes, each less twice what turned products make of it.
#[inline(always)]
fn sum_of_lanes(all: u8x32, turned: u8x32) -> i32 {
    // They are raised by 128, so that none is below 0.
    let lanes = all - turned - turned + u8x32::splat(128);
    lanes.cast::<u16>().reduce_sum() as i32 - 4_096
}
