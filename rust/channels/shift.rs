// Made by tools/rust of crates/channels/src/shift.rt: change that.
//! Doppler shifts by the unit of loops and steps.

use crate::oscillators::Doppler;

/// A Doppler shift in 1/65536 Hz.
pub(crate) fn shift_of(doppler: Doppler) -> i64 {
    i64::from(doppler.get()) * 65_536
}
