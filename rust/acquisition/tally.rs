// Made by tools/rust of crates/acquisition/src/tally.rt: change that.
//! What is kept of the cells that a search has done.

use crate::acquisition::bin_powers::BinPowers;
use crate::acquisition::plan::BIN_CELLS;

/// The greatest power of a cell: that of ten periods.
pub const MOST_POWER: u64 = 648_000_000_000;

/// What is kept of the powers of the cells that were done: how many there were, the greatest of
/// them and its cell, and their total.
#[derive(Debug)]
pub(crate) struct PowerTally {
    pub(crate) done: u64,
    /// The first cell that none exceeds, and its power; both 0 before the first cell.
    pub(crate) best: u64,
    pub(crate) greatest: u64,
    pub(crate) total: u64,
}

impl PowerTally {
    /// The tally of no cells.
    pub(crate) fn new() -> PowerTally {
        PowerTally {
            done: 0,
            best: 0,
            greatest: 0,
            total: 0,
        }
    }

    /// Takes the power of the next cell.
    pub(crate) fn take(&mut self, power: u64) {
        if power > self.greatest {
            self.best = self.done;
            self.greatest = power;
        }
        self.total += power;
        self.done += 1;
    }

    /// Takes the powers of the next bin's cells.
    pub(crate) fn take_bin(&mut self, bin: &BinPowers) {
        for i in 0..BIN_CELLS {
            self.take(bin.power(i));
        }
    }
}
