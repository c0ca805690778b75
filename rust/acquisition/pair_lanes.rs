// Made by tools/rust of crates/acquisition/src/pair_lanes.rt: change that.
//! The pairs of cells that follow one another, in lanes.

use crate::acquisition::chip_ring::CELLS_AT_ONCE;
use crate::bit_planes::LANES;
use crate::kit::lanes::*;

/// Pairs of 64 cells that follow one another, or of places of a ring: sixteen in each vector.
pub(crate) struct PairLanes {
    pub(crate) first: u32x16,
    pub(crate) second: u32x16,
    pub(crate) third: u32x16,
    pub(crate) fourth: u32x16,
}

impl PairLanes {
    /// The pairs of no sums.
    #[inline(always)]
    pub(crate) fn none() -> PairLanes {
        let zero = u32x16::splat(0);
        PairLanes {
            first: zero,
            second: zero,
            third: zero,
            fourth: zero,
        }
    }

    /// The pair of each cell.
    #[inline(always)]
    pub(crate) fn cells(&self) -> [u32; CELLS_AT_ONCE] {
        let mut cells = [0; CELLS_AT_ONCE];
        put_sixteen(&mut cells, 0, &self.first.to_array());
        put_sixteen(&mut cells, LANES, &self.second.to_array());
        put_sixteen(&mut cells, 2 * LANES, &self.third.to_array());
        put_sixteen(&mut cells, 3 * LANES, &self.fourth.to_array());
        cells
    }
}

/// Puts sixteen pairs in, from place `at` on.
#[inline(always)]
fn put_sixteen(cells: &mut [u32; CELLS_AT_ONCE], at: usize, sixteen: &[u32; LANES]) {
    assert!(
        at <= CELLS_AT_ONCE - LANES,
        "put_sixteen requires at + LANES <= CELLS_AT_ONCE"
    );
    for l in 0..LANES {
        cells[at + l] = sixteen[l];
    }
}
