// Made by tools/rust of crates/acquisition/src/ring_by_twos.rt: change that.
//! A ring of chips that is read for two chips at once.

use crate::acquisition::chip_ring::{CELLS_AT_ONCE, ChipRing};
use crate::acquisition::half_chip_table::{HALF_CHIPS, HalfChipTable};
use crate::acquisition::ones::Ones;
use crate::acquisition::pair_lanes::PairLanes;

/// A ring, and that of the sums of two chips that follow one another.
#[derive(Debug)]
pub(crate) struct RingByTwos {
    one: ChipRing,
    two: ChipRing,
}

impl RingByTwos {
    /// A ring of zeros.
    #[inline(always)]
    pub(crate) fn new() -> RingByTwos {
        RingByTwos {
            one: ChipRing::new(),
            two: ChipRing::new(),
        }
    }

    /// Makes the ring that of a table, whatever it was before.
    pub(crate) fn set(&mut self, table: &HalfChipTable) {
        self.one.set(table);
        self.two.set_twos(&self.one);
    }

    /// Makes the ring the pairs of the rings of two tables, whatever it was before.
    pub(crate) fn set_pairs(&mut self, first: &HalfChipTable, second: &HalfChipTable) {
        self.one.set(first);
        // The ring for two chips has the second ring until both are paired.
        self.two.set(second);
        self.one.pair_with(&self.two);
        self.two.set_twos(&self.one);
    }

    /// The sums over a code's chips of 1, for 64 cells from half chip `half` on. A third of these
    /// chips follow another one, with which they are taken.
    #[inline(always)]
    pub(crate) fn at_ones(&self, ones: &Ones, half: usize) -> [u32; CELLS_AT_ONCE] {
        let alone = self.one.add_at(ones.alone(), half, PairLanes::none());
        self.two.add_at(ones.twos(), half, alone).cells()
    }
}
