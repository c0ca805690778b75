// Made by tools/rust of crates/seldomplough/src/values.rt: change that.
//! Values as the bytes of a recording.

use crate::kit::std::vec::Vec;
use crate::facade::packing_fault::PackingFault;
use crate::kit::std::alloc::AllocError;

/// Writes signed bytes as a recording has them, in place of what was written. An error is memory
/// that it was refused.
pub fn write_i8(values: &[i8], written: &mut Vec<u8>) -> Result<(), AllocError> {
    written.clear();
    for value in values {
        written.extend_from_slice(&value.to_le_bytes())?;
    }
    Ok(())
}

/// Writes floats as a recording has them, the low byte first, in place of what was written. An
/// error is memory that it was refused, or a float that is no number.
pub fn write_f32(values: &[f32], written: &mut Vec<u8>) -> Result<(), PackingFault> {
    written.clear();
    for value in values {
        if value.is_nan() {
            return Err(PackingFault::NotANumber);
        }
        let four = value.to_le_bytes();
        written.extend_from_slice(&four)?;
    }
    Ok(())
}
