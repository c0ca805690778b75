// Made by tools/rust of crates/tracking_loops/src/limits.rt: change that.
//! The limits of the numbers that the loops take and give.

/// The greatest size of each of the six sums of a dump.
pub const MOST_SUM: u32 = 1 << 18;

/// The most dumps that loops take.
pub const MOST_STEERED_DUMPS: u64 = 1 << 40;

/// The greatest size of an error: a quotient of 1.
pub const MOST_ERROR: u32 = 4096;
