// Made by tools/rust of crates/oscillators/src/half_chip.rt: change that.
//! Places in the code, by half chips.

/// The last half chip of a code, which has 1,023 chips (IS-GPS-200, section 3.3.2.3).
pub const LAST_HALF_CHIP: u16 = 2_045;

/// A place in the code, in half chips from its first chip: 0 to 2,045. A code has 1,023 chips
/// (IS-GPS-200, section 3.3.2.3).
#[derive(Clone, Copy, Debug, PartialEq, Eq, PartialOrd, Ord, Hash)]
pub struct HalfChip(u16);

impl HalfChip {
    /// The place that many half chips into the code, or `None` above 2,045.
    #[must_use]
    pub fn new(half_chips: u16) -> Option<HalfChip> {
        if half_chips <= LAST_HALF_CHIP {
            Some(HalfChip(half_chips))
        } else {
            None
        }
    }

    /// The number of half chips from the code's first chip on, 0 to 2,045.
    #[must_use]
    pub fn get(self) -> u16 {
        self.0
    }
}
