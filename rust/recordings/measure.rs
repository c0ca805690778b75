// Made by tools/rust of crates/recordings/src/measure.rt: change that.
//! What the values of a recording are like.

use crate::recordings::part::PartRecipe;
use crate::recordings::recipe::{MOST_BYTES, Recipe};

/// What is measured of a part of a recording's samples. Sums are of readings, which are twice the
/// values: of at most 8 * `MOST_BYTES` of them, none above 2^17 in size, so none comes near 2^63.
#[derive(Clone, Copy, Debug, PartialEq, Eq)]
pub struct Measure {
    /// How many samples there are.
    pub count: u64,
    /// The sum of the samples' readings.
    pub sum: i64,
    /// The sum of the squares of their distances from the part's centre.
    pub squares: u64,
    /// How many samples stand at an end of their kind's range.
    pub at_ends: u64,
    /// How many samples have these bits about the part's centre: neither, size, sign, or both.
    pub shares: [u64; 4],
}

impl Recipe {
    /// Measures a part of all samples of some bytes, with sizes by a threshold.
    ///
    /// # Panics
    ///
    /// Plain Rust panics where there are more than `MOST_BYTES` bytes.
    #[must_use]
    pub fn measure(&self, part: &PartRecipe, threshold: u64, bytes: &[u8]) -> Measure {
        assert!(
            bytes.len() <= MOST_BYTES,
            "Recipe::measure requires bytes.len() <= MOST_BYTES"
        );
        let (low, high) = self.kind.ends();
        let count = 8 * bytes.len() / self.sample_bits();
        let (mut sum, mut squares, mut at_ends) = (0_i64, 0_u64, 0_u64);
        let mut shares = [0_u64; 4];
        for n in 0..count {
            let value = self.value(part, bytes, n);
            let distance = (value - part.centre).unsigned_abs();
            let bits = usize::from(2 * part.sign(value) + part.size(threshold, value));
            sum = sum.wrapping_add(value);
            squares = squares.wrapping_add(distance.wrapping_mul(distance));
            at_ends = at_ends.wrapping_add(u64::from(value <= low || high <= value));
            shares[bits] = shares[bits].wrapping_add(1);
        }
        Measure {
            count: count as u64,
            sum,
            squares,
            at_ends,
            shares,
        }
    }
}
