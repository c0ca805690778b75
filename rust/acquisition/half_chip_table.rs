// Made by tools/rust of crates/acquisition/src/half_chip_table.rt: change that.
//! Values added up by the half chips at which they lie.

use crate::ca_codes::CODE_CHIPS;

/// The places of a table: two for each of the code's 1,023 chips (IS-GPS-200, section 3.3.2.3).
pub(crate) const HALF_CHIPS: usize = 2 * CODE_CHIPS as usize;

/// The last place.
pub(crate) const LAST: usize = HALF_CHIPS - 1;

/// Values added up by the half chips at which they lie. Their sizes come to at most those over a
/// period of the code.
#[derive(Debug)]
pub(crate) struct HalfChipTable {
    sums: [i32; HALF_CHIPS],
}

impl HalfChipTable {
    /// The table of no values: each sum is 0.
    #[inline(always)]
    pub(crate) fn new() -> HalfChipTable {
        HalfChipTable {
            sums: [0; HALF_CHIPS],
        }
    }

    /// Adds a sum of values at a place.
    #[inline(always)]
    pub(crate) fn add(&mut self, place: usize, sum: i32) {
        self.sums[place] += sum;
    }

    /// The sum at a place.
    #[inline(always)]
    pub(crate) fn sum(&self, place: usize) -> i32 {
        self.sums[place]
    }

    /// The sizes of all sums, added up.
    pub(crate) fn sizes(&self) -> u32 {
        let mut sizes = 0;
        for k in 0..HALF_CHIPS {
            sizes += self.sums[k].unsigned_abs();
        }
        sizes
    }
}
