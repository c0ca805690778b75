// Made by tools/rust of crates/printed_lines/src/almanacs.rt: change that.
//! The words of the almanacs of all satellites.

use crate::printed_lines::words::{KIND_BYTES, Line, NUMBER_BYTES, WORD_BYTES};
use crate::data_sets::{AlmanacSet, SATELLITES};

/// The most bytes that the words of the almanacs take up.
pub const ALMANACS_BYTES: usize = KIND_BYTES + NUMBER_BYTES + 8 + SATELLITES * WORD_BYTES;

/// Adds the time of the almanacs, in units of 2^12 seconds, and the health of satellites 1 to 32
/// (IS-GPS-200, section 20.3.3.5.1.2).
pub(crate) fn put_almanacs(line: &mut Line, slot: u8, set: &AlmanacSet) {
    line.kind(b"als", slot);
    line.text(b" toa=");
    line.integer(set.toa);
    line.text(b":12");
    put_health(line, &set.health);
}

/// Adds the health of each satellite.
fn put_health(line: &mut Line, health: &[i64; SATELLITES]) {
    for value in health {
        line.signed(*value);
    }
}
