// Made by tools/rust of crates/recordings/src/packer.rt: change that.
//! Packing piece by piece.

use crate::kit::std::vec::Vec;
use crate::recordings::fault::PackFault;
use crate::recordings::recipe::{MOST_GROUP, Recipe};
use crate::recordings::value_kind::ValueKind;
use crate::kit::std::alloc::{AllocError, Global};

/// The most bytes of a piece.
pub const MOST_PIECE: usize = 1 << 16;

/// Packs a recording that comes in pieces, and holds the bytes that don't fill a byte yet.
pub struct Packer {
    recipe: Recipe,
    held: Vec<u8>,
}

impl Packer {
    /// The packer of a recording of which nothing came yet. It takes its memory at once. An error
    /// is memory that it was refused.
    pub fn new(alloc: Global, recipe: Recipe) -> Result<Packer, AllocError> {
        let held = Vec::with_capacity(alloc, MOST_PIECE + MOST_GROUP)?;
        Ok(Packer { recipe, held })
    }

    /// The kind of the recording's values.
    pub fn kind(&self) -> ValueKind {
        self.recipe.kind
    }

    /// Takes the next piece of the recording, and writes the bytes that this fills, in place of
    /// what was written. An error is memory that it was refused, or a float that is no number: then
    /// nothing is written, and what it held may be gone.
    pub fn take(&mut self, piece: &[u8], written: &mut Vec<u8>) -> Result<(), PackFault> {
        assert!(
            piece.len() <= MOST_PIECE,
            "Packer::take requires piece.len() <= MOST_PIECE"
        );
        written.clear();
        self.held.extend_from_slice(piece)?;
        match self.recipe.pack(&self.held, written) {
            Ok(()) => {
                drop_front(&mut self.held, written.len() * self.recipe.group());
                Ok(())
            }
            Err(error) => {
                self.held.clear();
                written.clear();
                Err(error)
            }
        }
    }

    /// How many samples at the end so far don't fill a byte.
    pub fn samples_held(&self) -> usize {
        8 * self.held.len() / self.recipe.sample_bits()
    }

    /// Whether the bytes so far end inside a sample.
    pub fn ends_inside(&self) -> bool {
        8 * self.held.len() % self.recipe.sample_bits() > 0
    }
}

/// Takes bytes away from the front.
fn drop_front(bytes: &mut Vec<u8>, count: usize) {
    let left = bytes.len() - count;
    bytes.copy_within(count.., 0);
    bytes.truncate(left);
}
