// Made by tools/rust of crates/seldomplough/src/units.rt: change that.
//! Numbers in the units of people, as floats: for showing, since no float is exact. The events and
//! answers themselves have whole numbers.

use crate::oscillators::{HalfChip, Settings};
use crate::subframes::Field;

/// The seconds from the start of a recording to a time in samples.
#[must_use]
pub fn seconds(time: u64, settings: &Settings) -> f64 {
    float_of(time) / f64::from(settings.rate())
}

/// A Doppler shift in Hz, or a correction of the code's rate in chips a second, from a number of
/// 1/65536 of that.
#[must_use]
pub fn from_65536ths(number: i64) -> f64 {
    signed_float_of(number) / 65_536.0
}

/// A place in the code, in chips from its first chip.
#[must_use]
pub fn chips(half: HalfChip) -> f64 {
    f64::from(half.get()) / 2.0
}

/// The value of a field of the message whose number was reported, in the unit that the field names:
/// the number times two to the power of the field's exponent.
#[must_use]
pub fn value(number: i64, field: Field) -> f64 {
    let exponent = field.exponent();
    let step = if exponent < 0 { 0.5 } else { 2.0 };
    let mut value = signed_float_of(number);
    for _ in 0..exponent.unsigned_abs() {
        value *= step;
    }
    value
}

/// The float nearest to a number.
fn float_of(number: u64) -> f64 {
    f64::from((number >> 32) as u32) * 4_294_967_296.0 + f64::from((number & 0xffff_ffff) as u32)
}

/// The float nearest to a number of either sign.
fn signed_float_of(number: i64) -> f64 {
    let size = float_of(number.unsigned_abs());
    if number < 0 { -size } else { size }
}
