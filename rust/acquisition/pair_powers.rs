// Made by tools/rust of crates/acquisition/src/pair_powers.rt: change that.
//! The powers of cells where the sums in phase and in quadrature are added up at once.

use crate::acquisition::chip_ring::{CELLS_AT_ONCE, RAISED};
use crate::acquisition::half_chip_table::HALF_CHIPS;
use crate::acquisition::ones::Ones;
use crate::acquisition::period_sums::PeriodSums;
use crate::acquisition::ring_pairs::pair;
use crate::acquisition::sums::Sums;

/// The sums over all samples, each raised by 2^16: their halves as a pair, and what these leave.
#[derive(Clone, Copy)]
struct RaisedWhole {
    /// The first half is raised by what raises the sum over the chips of 1 as well.
    halves: u32,
    in_phase_rest: u32,
    quadrature_rest: u32,
}

impl PeriodSums {
    /// The powers of 64 cells from half chip `half` on, where half of each sum of a cell fits in 16
    /// bits.
    pub(crate) fn powers_by_pairs(&self, ones: &Ones, half: usize) -> [u64; CELLS_AT_ONCE] {
        let picked = self.first.at_ones(ones, half);
        let whole = self.raised_whole(ones.count());
        powers_of(whole, &picked)
    }

    /// The sums over all samples, each raised by 2^16, for sums over so many chips of 1.
    #[inline(always)]
    fn raised_whole(&self, ones: usize) -> RaisedWhole {
        let in_phase = raised(self.whole.in_phase);
        let quadrature = raised(self.whole.quadrature);
        RaisedWhole {
            halves: pair(in_phase / 2 + RAISED * ones as u32, quadrature / 2),
            in_phase_rest: in_phase % 2,
            quadrature_rest: quadrature % 2,
        }
    }
}

/// The range of 16 bits: what raises a sum that is smaller, so that it isn't below 0.
const ALL_OF_16_BITS: i32 = 1 << 16;

/// A sum whose half fits in 16 bits, raised by 2^16.
#[inline(always)]
fn raised(sum: i32) -> u32 {
    (sum + ALL_OF_16_BITS) as u32
}

/// The powers of cells, from their pairs at the chips of 1.
#[inline(always)]
fn powers_of(whole: RaisedWhole, picked: &[u32; CELLS_AT_ONCE]) -> [u64; CELLS_AT_ONCE] {
    let mut powers = [0; CELLS_AT_ONCE];
    for l in 0..CELLS_AT_ONCE {
        let halves = whole.halves.wrapping_sub(picked[l]);
        let sums = Sums {
            in_phase: lowered(halves % (1 << 16), whole.in_phase_rest),
            quadrature: lowered(halves >> 16, whole.quadrature_rest),
        };
        powers[l] = sums.power();
    }
    powers
}

/// A sum that was raised by 2^16, from its half and what this leaves.
#[inline(always)]
fn lowered(half: u32, rest: u32) -> i32 {
    (2 * half + rest) as i32 - ALL_OF_16_BITS
}
