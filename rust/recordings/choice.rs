// Made by tools/rust of crates/recordings/src/choice.rt: change that.
//! What is asked of a recording.

use crate::recordings::part::PartRecipe;
use crate::recordings::recipe::Recipe;
use crate::recordings::value_kind::ValueKind;
use crate::sample_planes::Format;

/// What a recording is, and what is asked of it. Centres and threshold are twice their values, as
/// readings are, but for floats.
#[derive(Clone, Copy, Debug, PartialEq, Eq)]
pub struct Choice {
    /// The kind of the recording's values.
    pub kind: ValueKind,
    /// Whether the recording's values are pairs, in phase and in quadrature.
    pub is_paired: bool,
    /// The packing to write.
    pub format: Format,
    /// A value farther from its centre than this has the size 3.
    pub threshold: u32,
    /// The centre of the part in phase.
    pub centre: i32,
    /// The centre of the part in quadrature.
    pub centre_q: i32,
    /// Whether the part in quadrature stands first.
    pub is_swapped: bool,
    /// Whether the sign of the part in quadrature is turned.
    pub is_conjugate: bool,
    /// Whether real samples are made of the part in quadrature.
    pub takes_quadrature: bool,
}

/// What is asked of a recording can't be had.
#[non_exhaustive]
#[derive(Clone, Copy, Debug, PartialEq, Eq)]
pub enum ChoiceFault {
    /// A complex packing, or an option for pairs, is asked of real values.
    Pairs,
    /// A packing with two bits a part is asked of values of one bit.
    Sizes,
    /// Only one part is asked for, but the packing has both.
    Part,
}

impl core::fmt::Display for ChoiceFault {
    fn fmt(&self, f: &mut core::fmt::Formatter<'_>) -> core::fmt::Result {
        match self {
            ChoiceFault::Pairs => f.write_str("real values have no part in quadrature"),
            ChoiceFault::Sizes => f.write_str("values of one bit have no sizes"),
            ChoiceFault::Part => f.write_str("one part makes real samples alone"),
        }
    }
}

impl core::error::Error for ChoiceFault {}

impl Choice {
    /// The recipe that makes what is asked.
    ///
    /// # Errors
    ///
    /// There is none, for the reason that the fault names.
    pub fn recipe(&self) -> Result<Recipe, ChoiceFault> {
        match self.fault() {
            Some(fault) => Err(fault),
            None => Ok(self.make()),
        }
    }

    /// Why there is no recipe for what is asked.
    fn fault(&self) -> Option<ChoiceFault> {
        if !self.is_paired && self.needs_pairs() {
            Some(ChoiceFault::Pairs)
        } else if self.format.has_sizes() && self.kind.bits() == 1 {
            Some(ChoiceFault::Sizes)
        } else if self.format.has_quadrature() && self.takes_quadrature {
            Some(ChoiceFault::Part)
        } else {
            None
        }
    }

    /// Whether something is asked that only pairs have.
    fn needs_pairs(&self) -> bool {
        self.format.has_quadrature()
            || self.is_swapped
            || self.is_conjugate
            || self.takes_quadrature
    }

    /// The recipe of a choice that can be made.
    fn make(&self) -> Recipe {
        Recipe {
            kind: self.kind,
            is_paired: self.is_paired,
            format: self.format,
            threshold: u64::from(self.threshold),
            in_phase: self.first_part(),
            quadrature: self.second_part(),
        }
    }

    /// The part that real samples are made of, or that in phase.
    fn first_part(&self) -> PartRecipe {
        if self.takes_quadrature {
            self.quadrature()
        } else {
            self.in_phase()
        }
    }

    /// The part in quadrature, where there is one.
    fn second_part(&self) -> PartRecipe {
        if self.is_paired {
            self.quadrature()
        } else {
            self.in_phase()
        }
    }

    /// The part in phase.
    fn in_phase(&self) -> PartRecipe {
        PartRecipe {
            place: if self.is_swapped { 1 } else { 0 },
            centre: i64::from(self.centre),
            is_turned: false,
        }
    }

    /// The part in quadrature.
    fn quadrature(&self) -> PartRecipe {
        PartRecipe {
            place: if self.is_swapped { 0 } else { 1 },
            centre: i64::from(self.centre_q),
            is_turned: self.is_conjugate,
        }
    }
}
