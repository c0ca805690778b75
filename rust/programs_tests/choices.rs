// Made by tools/rust of crates/programs_tests/src/choices.rt: change that.
//! What is chosen for a recording that is packed.

use crate::recordings::{Choice, Packer, Recipe, ValueKind};
use crate::sample_planes::Format;
use crate::kit::std::alloc::{Alloc, Global};
use crate::kit::std::process::Abort;

/// Signs of values as they are, about 0.
pub fn signs(kind: ValueKind, is_paired: bool, format: Format) -> Choice {
    Choice {
        kind,
        is_paired,
        format,
        threshold: 0,
        centre: 0,
        centre_q: 0,
        is_swapped: false,
        is_conjugate: false,
        takes_quadrature: false,
    }
}

/// The recipe of a choice that isn't refused.
pub fn recipe_of(rt: &impl Abort, choice: &Choice) -> Recipe {
    choice.recipe().expect((rt, "no such choice").1)
}

/// A packer that took nothing.
pub fn packer_of(rt: &(impl Abort + Alloc<A = Global>), choice: &Choice) -> Packer {
    Packer::new(rt.alloc(), recipe_of(rt, choice)).expect((rt, "no memory").1)
}
