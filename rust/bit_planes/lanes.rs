// Made by tools/rust of crates/bit_planes/src/lanes.rt: change that.
//! Lanes of bytes.

/// The lanes that look up bytes of one window of a table.
pub const LANES: usize = 16;

/// The number of a byte's highest bit.
pub const TOP_BIT: u32 = 7;
