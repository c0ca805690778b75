// Made by tools/rust of crates/acquisition/src/bin_powers.rt: change that.
//! The powers of the cells of a bin.

use crate::acquisition::bin_steps::Steps;
use crate::acquisition::chip_ring::CELLS_AT_ONCE;
use crate::acquisition::dwell::Dwell;
use crate::acquisition::ones::Ones;
use crate::acquisition::period_sums::PeriodSums;
use crate::acquisition::plan::BIN_CELLS;
use crate::sample_planes::SampleSource;

/// The powers of a bin's cells so far. A period's powers are added one cell after another, and then
/// those of the next period; the sums of the period that is worked on are kept.
#[derive(Debug)]
pub(crate) struct BinPowers {
    powers: [u64; BIN_CELLS],
    /// How many powers over one period were added.
    added: usize,
    sums: PeriodSums,
}

impl BinPowers {
    /// The powers over no period.
    pub(crate) fn new() -> BinPowers {
        BinPowers {
            powers: [0; BIN_CELLS],
            added: 0,
            sums: PeriodSums::new(),
        }
    }

    /// Begins anew, with the powers over no period.
    pub(crate) fn clear(&mut self) {
        self.powers = [0; BIN_CELLS];
        self.added = 0;
    }

    /// Adds powers over periods of a dwell, until there are `to`.
    pub(crate) fn advance<S: SampleSource>(
        &mut self,
        to: usize,
        dwell: &Dwell,
        steps: Steps,
        ones: &Ones,
        source: &S,
    ) {
        while self.added < to {
            let cell = self.added % BIN_CELLS;
            if cell == 0 {
                let period = (self.added / BIN_CELLS) as u32;
                dwell.sum_up(period, steps, source, &mut self.sums);
            }
            let count = (to - self.added).min(BIN_CELLS - cell).min(CELLS_AT_ONCE);
            let powers = self.sums.powers(ones, cell);
            self.add(cell, count, &powers);
        }
    }

    /// Adds the first `count` of 64 powers over a period: those of `cell`, the next one, and of
    /// the cells after it.
    fn add(&mut self, cell: usize, count: usize, powers: &[u64; CELLS_AT_ONCE]) {
        assert!(
            count <= CELLS_AT_ONCE && cell <= BIN_CELLS - count,
            "BinPowers::add requires at most CELLS_AT_ONCE powers, of cells of the bin"
        );
        self.added += count;
        for l in 0..count {
            self.powers[cell + l] += powers[l];
        }
    }

    /// The powers of all cells so far.
    pub(crate) fn all(&self) -> [u64; BIN_CELLS] {
        self.powers
    }

    /// The power of cell `i` so far.
    pub(crate) fn power(&self, i: usize) -> u64 {
        self.powers[i]
    }
}
