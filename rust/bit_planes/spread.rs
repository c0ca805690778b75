// Made by tools/rust of crates/bit_planes/src/spread.rt: change that.
//! Numbers in lanes of bytes, where a bit of each lane's own is 1.

use crate::kit::lanes::*;

/// `ones` in each of 64 lanes where the bit of its byte that its mask names is 1, and 0 in the
/// others.
#[inline(always)]
pub fn marked_bytes(bytes: u8x64, masks: u8x64, ones: u8) -> u8x64 {
    (bytes & masks)
        .simd_ne(u8x64::splat(0))
        .select(u8x64::splat(ones), u8x64::splat(0))
}
