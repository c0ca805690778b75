//! The numbers that cross the border. `page/worker.js` names them too.

use seldomplough::internals::recordings::ValueKind;
use seldomplough::internals::sample_planes::Format;

/// How a run or a measurement ended.
#[derive(Clone, Copy, Debug, PartialEq, Eq)]
#[repr(u32)]
pub enum Ending {
    /// All is done: the recording came to its end.
    Done = 0,
    /// Memory was refused.
    NoMemory = 1,
    /// There is no script, or there are more than eight.
    Clients = 2,
    /// A share of the slots isn't 1 to 8.
    Share = 3,
    /// The recording couldn't be read.
    Read = 4,
    /// The lines weren't taken.
    Write = 5,
    /// There are more than 2^40 samples.
    TooLong = 6,
    /// A float of the recording is no number.
    NotANumber = 7,
    /// A float of the recording is infinite, so that there is no mean.
    Infinite = 8,
    /// The recording has no whole sample.
    Nothing = 9,
    /// The rate isn't 2,046,000 to 20,000,000 samples a second.
    Rate = 10,
    /// The offset is more than half of the rate.
    Offset = 11,
    /// A part in quadrature is asked of real values.
    Pairs = 12,
    /// Sizes are asked of values of one bit.
    Sizes = 13,
    /// One part is asked for, but complex samples have both.
    Part = 14,
    /// The kind or the format is none that is known, or the threshold or a centre is no number of
    /// halves within its range.
    Number = 15,
}

/// The kinds of values. Number 0 is a recording that is packed already, and number k the kind k - 1
/// of these.
const KINDS: [ValueKind; 9] = [
    ValueKind::U8,
    ValueKind::I8,
    ValueKind::I16,
    ValueKind::I16Be,
    ValueKind::F32,
    ValueKind::Bits2Low,
    ValueKind::SignSizeLow,
    ValueKind::Bits1Low,
    ValueKind::Bits1High,
];

/// The number of a recording that is packed already.
pub const PACKED: u32 = 0;

/// The values are pairs, in phase and in quadrature.
pub const PAIRED: u32 = 1;

/// The part in quadrature stands first in each pair.
pub const SWAPPED: u32 = 2;

/// The sign of the part in quadrature is turned.
pub const CONJUGATE: u32 = 4;

/// Real samples are made of the part in quadrature.
pub const QUADRATURE: u32 = 8;

/// The kind of values that a number stands for.
pub fn kind(number: u32) -> Result<ValueKind, Ending> {
    let place = (number as usize).checked_sub(1).ok_or(Ending::Number)?;
    KINDS.get(place).copied().ok_or(Ending::Number)
}

/// The packing that a number stands for.
pub fn format(number: u32) -> Result<Format, Ending> {
    match number {
        0 => Ok(Format::Real1),
        1 => Ok(Format::Real2),
        2 => Ok(Format::Iq1),
        3 => Ok(Format::Iq2),
        _ => Err(Ending::Number),
    }
}
