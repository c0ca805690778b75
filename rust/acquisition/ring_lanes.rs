// Made by tools/rust of crates/acquisition/src/ring_lanes.rt: change that.
//! The entries of a ring at chips, added up for cells that follow one another.

use crate::acquisition::chip_ring::{CELLS_AT_ONCE, ChipRing, place_of};
use crate::acquisition::pair_lanes::PairLanes;
use crate::bit_planes::LANES;
use crate::kit::lanes::*;

impl ChipRing {
    /// Pairs of 64 cells from half chip `half` on, with the entries at the places of some
    /// chips added to them.
    #[inline(never)]
    pub(crate) fn add_at(&self, places: &[u16], half: usize, lanes: PairLanes) -> PairLanes {
        let PairLanes {
            mut first,
            mut second,
            mut third,
            mut fourth,
        } = lanes;
        for k in 0..places.len() {
            let more = self.sixty_four(place_of(half, usize::from(places[k])));
            first = first + more.first;
            second = second + more.second;
            third = third + more.third;
            fourth = fourth + more.fourth;
        }
        PairLanes {
            first,
            second,
            third,
            fourth,
        }
    }

    /// The entries at 64 places, from place `at` on.
    #[inline(always)]
    pub(crate) fn sixty_four(&self, at: usize) -> PairLanes {
        let chips = &self.chips[at..at + CELLS_AT_ONCE];
        PairLanes {
            first: u32x16::from_slice(chips),
            second: u32x16::from_slice_at(chips, LANES),
            third: u32x16::from_slice_at(chips, 2 * LANES),
            fourth: u32x16::from_slice_at(chips, 3 * LANES),
        }
    }
}
