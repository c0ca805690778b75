// Made by tools/rust of crates/bit_planes/src/word_lanes.rt: change that.
//! 64 bytes at a time, one for each place of a word.

use crate::kit::lanes::*;

/// The numbers of two times sixteen lanes.
const THIRTY_TWO: [usize; 32] = [
    0, 1, 2, 3, 4, 5, 6, 7, 8, 9, 10, 11, 12, 13, 14, 15, 16, 17, 18, 19, 20, 21, 22, 23, 24, 25,
    26, 27, 28, 29, 30, 31,
];

/// The numbers of the lanes of a word.
const SIXTY_FOUR: [usize; 64] = [
    0, 1, 2, 3, 4, 5, 6, 7, 8, 9, 10, 11, 12, 13, 14, 15, 16, 17, 18, 19, 20, 21, 22, 23, 24, 25,
    26, 27, 28, 29, 30, 31, 32, 33, 34, 35, 36, 37, 38, 39, 40, 41, 42, 43, 44, 45, 46, 47, 48, 49,
    50, 51, 52, 53, 54, 55, 56, 57, 58, 59, 60, 61, 62, 63,
];

/// Bit `number` of each of 64 bytes, the lowest being bit 0: that of lane k is bit k.
#[inline(always)]
pub fn bit_of_each(bytes: u8x64, number: u32) -> u64 {
    assert!(number < 8, "bit_of_each requires number < 8");
    (bytes & u8x64::splat(1 << number))
        .simd_ne(u8x64::splat(0))
        .to_bitmask()
}

/// 64 bytes of a table, by their lanes' numbers. Each sixteen lanes count from a place of their
/// own.
#[inline(always)]
pub fn pick_from_four(table: &[u8], at: [usize; 4], numbers: u8x64) -> u8x64 {
    four_windows(table, at).swizzle_dyn_within::<16>(numbers)
}

/// Sixteen bytes of a table from each of four places on.
#[inline(always)]
fn four_windows(table: &[u8], at: [usize; 4]) -> u8x64 {
    u8x64::from_places(table, at)
}

