// Made by tools/rust of crates/recordings/src/part.rt: change that.
//! How one part of a sample is made of a recording's values.

use crate::recordings::numbers::READING_LIMIT;

/// How a part of a sample is made: of which value, and about which centre.
#[derive(Clone, Copy, Debug, PartialEq, Eq)]
pub struct PartRecipe {
    /// Which value of the recording's sample: 0 is the first.
    pub place: usize,
    /// The centre, twice its value: a value below it has the sign -1.
    pub centre: i64,
    /// Whether the sign is turned, as that of the part in quadrature of a conjugate.
    pub is_turned: bool,
}

impl PartRecipe {
    /// The bit of the sign.
    pub(crate) fn sign(&self, value: i64) -> u8 {
        if self.is_turned {
            if value < self.centre { 0 } else { 1 }
        } else {
            if value < self.centre { 1 } else { 0 }
        }
    }

    /// The bit of the size.
    pub(crate) fn size(&self, threshold: u64, value: i64) -> u8 {
        if threshold < (value - self.centre).unsigned_abs() {
            1
        } else {
            0
        }
    }
}
