// Made by tools/rust of crates/acquisition/src/period_sums.rt: change that.
//! The sums over a period, and the powers of cells from them.

use crate::acquisition::bin_steps::Steps;
use crate::acquisition::chip_ring::CELLS_AT_ONCE;
use crate::acquisition::fold::Fold;
use crate::acquisition::ones::Ones;
use crate::acquisition::ring_by_twos::RingByTwos;
use crate::acquisition::sums::Sums;
use crate::sample_planes::SampleSource;

/// The sums over a period's samples without their carrier: over a chip wherever it begins, and over
/// all.
#[derive(Debug)]
pub(crate) struct PeriodSums {
    /// The sums of both parts in one where they are small, else those in phase.
    pub(crate) first: RingByTwos,
    /// The sums in quadrature, where they aren't small.
    pub(crate) second: RingByTwos,
    pub(crate) whole: Sums,
    /// Whether half of each sum of a cell fits in 16 bits.
    is_small: bool,
}

impl PeriodSums {
    /// The sums over no samples.
    #[inline(always)]
    pub(crate) fn new() -> PeriodSums {
        PeriodSums {
            first: RingByTwos::new(),
            second: RingByTwos::new(),
            whole: Sums::NONE,
            is_small: true,
        }
    }

    /// Takes the sums over samples `first` to `first + len - 1` of a source, as a fold does.
    pub(crate) fn fill<S: SampleSource>(
        &mut self,
        source: &S,
        first: u64,
        before: u64,
        len: usize,
        steps: Steps,
    ) {
        let mut fold = Fold::new();
        fold.fill(source, first, before, len, steps);
        self.whole = fold.whole();
        self.is_small = fold.is_small();
        set_rings(&mut self.first, &mut self.second, &fold, self.is_small);
    }

    /// The powers over the period of 64 cells that follow one another, whose codes begin at half
    /// chip `half` and at those after it. A sum with a code is that of all samples less twice that
    /// of those at chips of 1.
    pub(crate) fn powers(&self, ones: &Ones, half: usize) -> [u64; CELLS_AT_ONCE] {
        if self.is_small {
            self.powers_by_pairs(ones, half)
        } else {
            self.powers_by_parts(ones, half)
        }
    }
}

/// Sets two rings to the sums of a fold: the first to the pairs of both parts where these are
/// small, else one to each part.
fn set_rings(first: &mut RingByTwos, second: &mut RingByTwos, fold: &Fold, is_small: bool) {
    if is_small {
        first.set_pairs(&fold.in_phase, &fold.quadrature);
    } else {
        first.set(&fold.in_phase);
        second.set(&fold.quadrature);
    }
}
