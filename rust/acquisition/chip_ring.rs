// Made by tools/rust of crates/acquisition/src/chip_ring.rt: change that.
//! The sums over a chip, wherever it begins.

use crate::acquisition::half_chip_table::{HALF_CHIPS, HalfChipTable, LAST};

/// How many cells are summed up at once: those of four vectors.
pub(crate) const CELLS_AT_ONCE: usize = 64;

/// The places of a ring: those of a table, and the first 63 again after them, so that 64 in a row
/// never wrap.
pub(crate) const RING: usize = HALF_CHIPS + CELLS_AT_ONCE - 1;

/// What is added to each sum, so that none is below 0: each is of two entries of a table, and at
/// most 360,000 in size. Times 2^16 it is 0 modulo 2^32.
pub(crate) const RAISED: u32 = 1 << 19;

/// For each half chip the sum over the chip that begins there, raised by `RAISED`: the last half
/// chip first, since a code that begins a half chip later has its chips a half chip earlier. Or
/// more such sums in one, modulo 2^32: those of two parts, of which the second is times 2^16, and
/// those of two chips that follow one another.
#[derive(Debug)]
pub(crate) struct ChipRing {
    pub(crate) chips: [u32; RING],
}

impl ChipRing {
    /// A ring of zeros.
    #[inline(always)]
    pub(crate) fn new() -> ChipRing {
        ChipRing { chips: [0; RING] }
    }

    /// Makes the ring that of a table, whatever it was before.
    pub(crate) fn set(&mut self, table: &HalfChipTable) {
        for k in 0..LAST {
            self.put(k, table.sum(k) + table.sum(k + 1));
        }
        self.put(LAST, table.sum(LAST) + table.sum(0));
        self.close();
    }

    /// Puts in the sum over the chip that begins at half chip `k`.
    #[inline(always)]
    fn put(&mut self, k: usize, chip: i32) {
        self.chips[LAST - k] = (chip + RAISED as i32) as u32;
    }

    /// Puts the first sums after the last.
    fn close(&mut self) {
        for i in HALF_CHIPS..RING {
            self.chips[i] = self.chips[i - HALF_CHIPS];
        }
    }
}

/// The place in a ring of a chip for a code that begins at half chip `half`, from its place for one
/// that begins at half chip 0.
#[inline(always)]
pub(crate) fn place_of(half: usize, first: usize) -> usize {
    let place = half + first;
    if place < HALF_CHIPS {
        place
    } else {
        place - HALF_CHIPS
    }
}
