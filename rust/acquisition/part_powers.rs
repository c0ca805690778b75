// Made by tools/rust of crates/acquisition/src/part_powers.rt: change that.
//! The powers of cells where the sums in phase and in quadrature are added up apart.

use crate::acquisition::chip_ring::{CELLS_AT_ONCE, RAISED};
use crate::acquisition::half_chip_table::HALF_CHIPS;
use crate::acquisition::ones::Ones;
use crate::acquisition::period_sums::PeriodSums;
use crate::acquisition::sums::Sums;

impl PeriodSums {
    /// The powers of 64 cells from half chip `half` on, where their sums aren't small.
    pub(crate) fn powers_by_parts(&self, ones: &Ones, half: usize) -> [u64; CELLS_AT_ONCE] {
        let in_phase = self.first.at_ones(ones, half);
        let quadrature = self.second.at_ones(ones, half);
        let raised = RAISED * ones.count() as u32;
        let mut powers = [0; CELLS_AT_ONCE];
        for l in 0..CELLS_AT_ONCE {
            let sums = Sums {
                in_phase: less_twice(self.whole.in_phase, in_phase[l], raised),
                quadrature: less_twice(self.whole.quadrature, quadrature[l], raised),
            };
            powers[l] = sums.power();
        }
        powers
    }
}

/// A sum over all samples less twice what is `picked` of them, which was raised by `raised`.
#[inline(always)]
fn less_twice(whole: i32, picked: u32, raised: u32) -> i32 {
    whole - 2 * (picked as i32 - raised as i32)
}
