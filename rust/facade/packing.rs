// Made by tools/rust of crates/seldomplough/src/packing.rt: change that.
//! Packed samples of a recording's values.

use crate::kit::std::vec::Vec;
use crate::facade::packing_fault::PackingFault;
use crate::facade::values::{write_f32, write_i8};
use crate::recordings::{FLOAT_BYTES, MOST_PIECE, Packer, Recipe, ValueKind};
use crate::kit::std::alloc::{AllocError, Global};
use crate::kit::std::fmt::{self, Debug, Formatter};

/// Packs a recording's values as a `Receiver` takes them, piece by piece, however they are cut. It
/// holds the values that don't fill a byte yet.
pub struct Packing {
    packer: Packer,
    /// The bytes of the values that came last.
    piece: Vec<u8>,
    /// What was packed when these came.
    packed: Vec<u8>,
}

impl Packing {
    /// Packs by a recipe, which a `Choice` gives. It takes its memory at once.
    ///
    /// # Errors
    ///
    /// There is no memory.
    pub fn open(alloc: Global, recipe: Recipe) -> Result<Packing, AllocError> {
        Ok(Packing {
            packer: Packer::new(alloc, recipe)?,
            piece: Vec::with_capacity(alloc, MOST_PIECE)?,
            packed: Vec::with_capacity(alloc, MOST_PIECE)?,
        })
    }

    /// The bytes that the values that were taken last filled. After an error there are none; but
    /// values for a recording of another kind change nothing.
    #[must_use]
    pub fn packed(&self) -> &[u8] {
        self.packed.as_slice()
    }

    /// Takes bytes of the recording from the front of some, and gives those after them. It takes
    /// all of them, or `MOST_PIECE`.
    ///
    /// # Errors
    ///
    /// There is no memory, or a float is no number. Then nothing is packed, and values that it held
    /// may be gone.
    pub fn take<'b>(&mut self, bytes: &'b [u8]) -> Result<&'b [u8], PackingFault> {
        let (front, rest) = bytes.split_at(bytes.len().min(MOST_PIECE));
        self.packer.take(front, &mut self.packed)?;
        Ok(rest)
    }

    /// Takes signed bytes as `take` does the bytes of a recording of kind `ValueKind::I8`.
    ///
    /// # Errors
    ///
    /// The recording has values of another kind, and nothing has changed. Or there is no memory:
    /// then nothing is packed, and values that it held may be gone.
    pub fn take_i8<'v>(&mut self, values: &'v [i8]) -> Result<&'v [i8], PackingFault> {
        if self.packer.kind() != ValueKind::I8 {
            return Err(PackingFault::OtherKind);
        }
        self.packed.clear();
        let (front, rest) = values.split_at(values.len().min(MOST_PIECE));
        write_i8(front, &mut self.piece)?;
        self.packer.take(&self.piece, &mut self.packed)?;
        Ok(rest)
    }

    /// Takes floats as `take` does the bytes of a recording of kind `ValueKind::F32`.
    ///
    /// # Errors
    ///
    /// The recording has values of another kind, and nothing has changed. Or a float is no number,
    /// or there is no memory: then nothing is packed, and values that it held may be gone.
    pub fn take_f32<'v>(&mut self, values: &'v [f32]) -> Result<&'v [f32], PackingFault> {
        if self.packer.kind() != ValueKind::F32 {
            return Err(PackingFault::OtherKind);
        }
        self.packed.clear();
        let (front, rest) = values.split_at(values.len().min(MOST_PIECE / FLOAT_BYTES));
        write_f32(front, &mut self.piece)?;
        self.packer.take(&self.piece, &mut self.packed)?;
        Ok(rest)
    }
}

impl Debug for Packing {
    /// How many bytes the last values filled.
    fn fmt(&self, f: &mut Formatter) -> fmt::Result {
        write!(f, "Packing {{ packed: {}, .. }}", self.packed.len())
    }
}
