// Made by tools/rust of crates/recordings/src/recipe.rt: change that.
//! How a recording's samples are packed.

use crate::recordings::part::PartRecipe;
use crate::recordings::value_kind::ValueKind;
use crate::sample_planes::Format;

/// The most bytes that samples are read from at once.
pub const MOST_BYTES: usize = 1 << 20;

/// The most bits of a recording that a sample has: two floats.
pub const MOST_SAMPLE_BITS: usize = 64;

/// The most bytes of a recording that a written byte is made of: eight samples of two floats.
pub const MOST_GROUP: usize = 64;

/// How many values a byte has.
pub const BYTE_VALUES: usize = 256;

/// How a recording's samples are packed.
#[derive(Clone, Copy, Debug, PartialEq, Eq)]
pub struct Recipe {
    /// The kind of the recording's values.
    pub kind: ValueKind,
    /// Whether the recording's values are pairs.
    pub is_paired: bool,
    /// The packing to write.
    pub format: Format,
    /// A value farther from its centre than this has the size 3: twice the value, as the centre.
    pub threshold: u64,
    /// The part in phase.
    pub in_phase: PartRecipe,
    /// The part in quadrature. Where the packing is real it isn't used.
    pub quadrature: PartRecipe,
}

impl Recipe {
    /// How many values a sample has.
    pub(crate) fn parts(&self) -> usize {
        if self.is_paired { 2 } else { 1 }
    }
    /// How many bits of a recording a sample has, 1 to `MOST_SAMPLE_BITS`.
    #[must_use]
    pub fn sample_bits(&self) -> usize {
        self.parts() * self.kind.bits()
    }

    /// How many bytes of a recording each written byte is made of, 1 to `MOST_GROUP`.
    #[must_use]
    pub fn group(&self) -> usize {
        self.format.per_byte() * self.sample_bits() / 8
    }

    /// The value that a part is made of.
    pub(crate) fn value(&self, part: &PartRecipe, bytes: &[u8], n: usize) -> i64 {
        self.kind.reading(bytes, self.parts() * n + part.place)
    }
}
