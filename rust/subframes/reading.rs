// Made by tools/rust of crates/subframes/src/reading.rt: change that.
//! The number of a field in a subframe.

use crate::subframes::fields::Field;
use crate::frame_sync::Subframe;

/// The number that the bits of a field write, whatever the subframe's ID and SV ID, or `None` where
/// a word that holds a part of it is missing. It is from -2^31 to 2^32 - 1, in units of two to the
/// power of the field's exponent (IS-GPS-200, section 20.3.3).
#[must_use]
pub fn field(subframe: &Subframe, field: Field) -> Option<i64> {
    let layout = field.layout();
    if layout.is_there(subframe) {
        Some(layout.value(subframe))
    } else {
        None
    }
}

/// The number that the bits of a field write, missing words read as 0.
pub(crate) fn value(subframe: &Subframe, field: Field) -> i64 {
    field.layout().value(subframe)
}
