// Made by tools/rust of crates/oscillators/src/carries.rt: change that.
//! What 64 lanes carry out of their lower halves.

use crate::bit_planes::WORD_PLACES;
use crate::kit::lanes::*;

/// What both halves of a number of 32 bits are below.
pub(crate) const HALF: u32 = 1 << 16;

/// What a half is lessened by in its lane, so that halves are compared with their signs.
const MIDDLE: i32 = 1 << 15;

/// Where the halves of each lane's number stand. AVX2 packs lanes of sixteen bits to bytes eight at
/// a time, from two vectors in turn. So these come out in order.
pub(crate) const ORDER: [usize; WORD_PLACES] = [
    0, 1, 2, 3, 4, 5, 6, 7, 16, 17, 18, 19, 20, 21, 22, 23, 8, 9, 10, 11, 12, 13, 14, 15, 24, 25,
    26, 27, 28, 29, 30, 31, 32, 33, 34, 35, 36, 37, 38, 39, 48, 49, 50, 51, 52, 53, 54, 55, 40, 41,
    42, 43, 44, 45, 46, 47, 56, 57, 58, 59, 60, 61, 62, 63,
];

/// A half as it stands in a lane: less 2^15.
pub(crate) fn signed_half(half: u32) -> i16 {
    (half as i32 - MIDDLE) as i16
}

/// 1 in each lane whose room is less than a lower half, and 0 in the others. The rooms are halves
/// too.
#[inline(always)]
pub(crate) fn carries(low: u32, rooms: i16x64) -> u16x64 {
    assert!(low < HALF, "carries requires low < HALF");
    i16x64::splat(signed_half(low))
        .simd_gt(rooms)
        .select(u16x64::splat(1), u16x64::splat(0))
}
