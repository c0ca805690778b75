// Made by tools/rust of crates/acquisition/src/plan.rt: change that.
//! What an acquisition searches.

use crate::acquisition::cell::Cell;
use crate::acquisition::half_chip_table::HALF_CHIPS;
use crate::acquisition::signal::Signal;
use crate::ca_codes::Prn;
use crate::oscillators::Doppler;

/// The greatest size of a plan's centre, in Hz.
pub const MOST_CENTRE: u32 = 6_000;

/// The most bins to each side of a plan's middle one.
pub const MOST_SIDE_BINS: u32 = 40;

/// The most bins of a plan.
pub const MOST_BINS: usize = 81;

/// The most periods of the code of a dwell.
pub const MOST_DWELL: u32 = 10;

/// The greatest threshold, in tenths of the mean power.
pub const MOST_THRESHOLD: u32 = 1_000;

/// The cells of a bin: one for each half chip of the code, which has 1,023 chips (IS-GPS-200,
/// section 3.3.2.3).
pub const BIN_CELLS: usize = HALF_CHIPS;

/// The most cells of a plan: `BIN_CELLS` for each bin.
pub const MOST_CELLS: u64 = 165_726;

/// Why a plan is refused: the first of its parts, in this order, that is wrong.
#[non_exhaustive]
#[derive(Clone, Copy, Debug, PartialEq, Eq)]
pub enum PlanFault {
    /// The centre is outside -6,000 to 6,000 Hz.
    Centre,
    /// There are more than 40 bins to each side.
    Bins,
    /// The dwell is outside 1 to 10 periods.
    Dwell,
    /// The threshold is outside 1 to 1,000 tenths of the mean power.
    Threshold,
}

impl core::fmt::Display for PlanFault {
    fn fmt(&self, f: &mut core::fmt::Formatter<'_>) -> core::fmt::Result {
        match self {
            PlanFault::Centre => f.write_str("the centre is from -6000 to 6000 Hz"),
            PlanFault::Bins => f.write_str("there are at most 40 bins to each side"),
            PlanFault::Dwell => f.write_str("the dwell is from 1 to 10 periods of the code"),
            PlanFault::Threshold => f.write_str("the threshold is from 1 to 1000 tenths of the mean power"),
        }
    }
}

impl core::error::Error for PlanFault {}

/// What an acquisition searches: for which satellite, about which Doppler shift, over how long, and
/// what counts as found. A bin is 250 Hz wide and has 2,046 cells, one for each half chip of the
/// code. The ranges are this project's own.
#[derive(Clone, Copy, Debug, PartialEq, Eq)]
pub struct Plan {
    prn: Prn,
    centre: i32,
    bins: u32,
    dwell: u32,
    threshold: u32,
}

impl Plan {
    /// A plan for a satellite: `bins` bins, 0 to 40, to each side of the one at `centre` Hz, -6,000
    /// to 6,000; a dwell of 1 to 10 periods of the code; and a threshold of 1 to 1,000 tenths of
    /// the mean power.
    ///
    /// # Errors
    ///
    /// One of them is outside its range: the centre is checked first, then the bins, the dwell and
    /// the threshold.
    pub fn new(
        prn: Prn,
        centre: i32,
        bins: u32,
        dwell: u32,
        threshold: u32,
    ) -> Result<Plan, PlanFault> {
        if MOST_CENTRE < centre.unsigned_abs() {
            return Err(PlanFault::Centre);
        }
        if MOST_SIDE_BINS < bins {
            return Err(PlanFault::Bins);
        }
        if dwell < 1 || MOST_DWELL < dwell {
            return Err(PlanFault::Dwell);
        }
        if threshold < 1 || MOST_THRESHOLD < threshold {
            return Err(PlanFault::Threshold);
        }
        Ok(Plan {
            prn,
            centre,
            bins,
            dwell,
            threshold,
        })
    }

    /// The satellite that is searched for.
    #[must_use]
    pub fn prn(&self) -> Prn {
        self.prn
    }

    /// The Doppler shift of the middle bin in Hz, -6,000 to 6,000.
    #[must_use]
    pub fn centre(&self) -> i32 {
        self.centre
    }

    /// How many bins there are to each side of the middle one: 0 to 40.
    #[must_use]
    pub fn bins(&self) -> u32 {
        self.bins
    }

    /// How many cells there are: `BIN_CELLS` to `MOST_CELLS`.
    #[must_use]
    pub fn cells(&self) -> u64 {
        BIN_CELLS as u64 * self.bin_count() as u64
    }

    /// How many bins there are: 1 to 81.
    pub(crate) fn bin_count(&self) -> usize {
        2 * self.bins as usize + 1
    }

    /// How many periods of the code the dwell has: 1 to 10.
    #[must_use]
    pub fn dwell(&self) -> u32 {
        self.dwell
    }

    /// The threshold in tenths of the mean power: 1 to 1,000.
    #[must_use]
    pub fn threshold(&self) -> u32 {
        self.threshold
    }

    /// The signal of a cell of this plan at the dwell's first sample, from which on it can be
    /// followed; `None` for a cell whose bin isn't one of the plan's.
    #[must_use]
    pub fn signal(&self, cell: &Cell) -> Option<Signal> {
        if self.bins < cell.bin.unsigned_abs() {
            return None;
        }
        Some(Signal {
            prn: self.prn,
            doppler: Doppler::new(self.centre + 250 * cell.bin)?,
            half: cell.half,
        })
    }

    /// How many bins the bin number `k`, from the lowest shift up, lies above the middle one.
    pub(crate) fn bin(&self, k: usize) -> i32 {
        let middle = self.bins as i32;
        k as i32 - middle
    }

    /// The Doppler shift of bin number `k`, from the lowest shift up, in 1/65536 Hz.
    pub(crate) fn shift(&self, k: usize) -> i64 {
        (i64::from(self.centre) + 250 * i64::from(self.bin(k))) * 65_536
    }
}
