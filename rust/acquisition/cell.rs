// Made by tools/rust of crates/acquisition/src/cell.rt: change that.
//! What an acquisition names.

use crate::oscillators::HalfChip;

/// A cell of a search, and whether a signal was found there.
#[derive(Clone, Copy, Debug, PartialEq, Eq)]
pub struct Cell {
    /// How many bins of 250 Hz its Doppler shift lies above the plan's centre: -40 to 40.
    pub bin: i32,
    /// Where the code is at the dwell's first sample, in half chips from the code's first chip: the
    /// phase that a `hold` or a `track` takes. It isn't the delay, which is the rest of the code.
    pub half: HalfChip,
    /// The sum over the dwell's periods of the squares of the sums in phase and in quadrature.
    pub power: u64,
    /// Whether the power is the plan's threshold times the mean of all cells, or more.
    pub found: bool,
}
