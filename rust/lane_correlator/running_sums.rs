// Made by tools/rust of crates/lane_correlator/src/running_sums.rt: change that.
//! Sums of the bytes of a word, from its first place on.

use crate::lane_correlator::wiped::mask_of_places;
use crate::bit_planes::WORD_PLACES;
use crate::kit::lanes::*;

/// The lanes that are looked up by themselves.
const SIXTEEN: usize = 16;

/// The number of the next lane in each sixteen lanes, round and round.
const ONE_ON: [u8; WORD_PLACES] = [
    1, 2, 3, 4, 5, 6, 7, 8, 9, 10, 11, 12, 13, 14, 15, 0, 1, 2, 3, 4, 5, 6, 7, 8, 9, 10, 11, 12,
    13, 14, 15, 0, 1, 2, 3, 4, 5, 6, 7, 8, 9, 10, 11, 12, 13, 14, 15, 0, 1, 2, 3, 4, 5, 6, 7, 8, 9,
    10, 11, 12, 13, 14, 15, 0,
];

/// The number of the lane two on.
const TWO_ON: [u8; WORD_PLACES] = [
    2, 3, 4, 5, 6, 7, 8, 9, 10, 11, 12, 13, 14, 15, 0, 1, 2, 3, 4, 5, 6, 7, 8, 9, 10, 11, 12, 13,
    14, 15, 0, 1, 2, 3, 4, 5, 6, 7, 8, 9, 10, 11, 12, 13, 14, 15, 0, 1, 2, 3, 4, 5, 6, 7, 8, 9, 10,
    11, 12, 13, 14, 15, 0, 1,
];

/// The number of the lane four on.
const FOUR_ON: [u8; WORD_PLACES] = [
    4, 5, 6, 7, 8, 9, 10, 11, 12, 13, 14, 15, 0, 1, 2, 3, 4, 5, 6, 7, 8, 9, 10, 11, 12, 13, 14, 15,
    0, 1, 2, 3, 4, 5, 6, 7, 8, 9, 10, 11, 12, 13, 14, 15, 0, 1, 2, 3, 4, 5, 6, 7, 8, 9, 10, 11, 12,
    13, 14, 15, 0, 1, 2, 3,
];

/// The number of the lane eight on.
const EIGHT_ON: [u8; WORD_PLACES] = [
    8, 9, 10, 11, 12, 13, 14, 15, 0, 1, 2, 3, 4, 5, 6, 7, 8, 9, 10, 11, 12, 13, 14, 15, 0, 1, 2, 3,
    4, 5, 6, 7, 8, 9, 10, 11, 12, 13, 14, 15, 0, 1, 2, 3, 4, 5, 6, 7, 8, 9, 10, 11, 12, 13, 14, 15,
    0, 1, 2, 3, 4, 5, 6, 7,
];

/// Masks of the lanes that have a next one in their sixteen.
const HAVE_ONE_ON: [u8; WORD_PLACES] = [
    255, 255, 255, 255, 255, 255, 255, 255, 255, 255, 255, 255, 255, 255, 255, 0, 255, 255, 255,
    255, 255, 255, 255, 255, 255, 255, 255, 255, 255, 255, 255, 0, 255, 255, 255, 255, 255, 255,
    255, 255, 255, 255, 255, 255, 255, 255, 255, 0, 255, 255, 255, 255, 255, 255, 255, 255, 255,
    255, 255, 255, 255, 255, 255, 0,
];

/// Masks of the lanes that have one two on.
const HAVE_TWO_ON: [u8; WORD_PLACES] = [
    255, 255, 255, 255, 255, 255, 255, 255, 255, 255, 255, 255, 255, 255, 0, 0, 255, 255, 255, 255,
    255, 255, 255, 255, 255, 255, 255, 255, 255, 255, 0, 0, 255, 255, 255, 255, 255, 255, 255, 255,
    255, 255, 255, 255, 255, 255, 0, 0, 255, 255, 255, 255, 255, 255, 255, 255, 255, 255, 255, 255,
    255, 255, 0, 0,
];

/// Masks of the lanes that have one four on.
const HAVE_FOUR_ON: [u8; WORD_PLACES] = [
    255, 255, 255, 255, 255, 255, 255, 255, 255, 255, 255, 255, 0, 0, 0, 0, 255, 255, 255, 255,
    255, 255, 255, 255, 255, 255, 255, 255, 0, 0, 0, 0, 255, 255, 255, 255, 255, 255, 255, 255,
    255, 255, 255, 255, 0, 0, 0, 0, 255, 255, 255, 255, 255, 255, 255, 255, 255, 255, 255, 255, 0,
    0, 0, 0,
];

/// Masks of the lanes that have one eight on.
const HAVE_EIGHT_ON: [u8; WORD_PLACES] = [
    255, 255, 255, 255, 255, 255, 255, 255, 0, 0, 0, 0, 0, 0, 0, 0, 255, 255, 255, 255, 255, 255,
    255, 255, 0, 0, 0, 0, 0, 0, 0, 0, 255, 255, 255, 255, 255, 255, 255, 255, 0, 0, 0, 0, 0, 0, 0,
    0, 255, 255, 255, 255, 255, 255, 255, 255, 0, 0, 0, 0, 0, 0, 0, 0,
];

/// The positions sixteen lanes on, round and round.
const SIXTEEN_ON: [usize; WORD_PLACES] = [
    16, 17, 18, 19, 20, 21, 22, 23, 24, 25, 26, 27, 28, 29, 30, 31, 32, 33, 34, 35, 36, 37, 38, 39,
    40, 41, 42, 43, 44, 45, 46, 47, 48, 49, 50, 51, 52, 53, 54, 55, 56, 57, 58, 59, 60, 61, 62, 63,
    0, 1, 2, 3, 4, 5, 6, 7, 8, 9, 10, 11, 12, 13, 14, 15,
];

/// The sums modulo 256 of the bytes at places 0 to j, at each place j.
#[inline(always)]
pub(crate) fn running_sums(bytes: u8x64) -> u8x64 {
    let sums = sums_in_sixteens(bytes);
    let whole = sums.swizzle_dyn_within::<16>(u8x64::splat(0));
    sums + sums_before(whole)
}

/// The sums at each place from the first one of its sixteen on.
#[inline(always)]
fn sums_in_sixteens(bytes: u8x64) -> u8x64 {
    let twos = doubled(bytes, ONE_ON, HAVE_ONE_ON);
    let fours = doubled(twos, TWO_ON, HAVE_TWO_ON);
    let eights = doubled(fours, FOUR_ON, HAVE_FOUR_ON);
    doubled(eights, EIGHT_ON, HAVE_EIGHT_ON)
}

/// The sums over twice as many places as `sums` are of: with the numbers of the lanes that are so
/// far on, and the masks of those that have one.
#[inline(always)]
fn doubled(sums: u8x64, on: [u8; WORD_PLACES], have: [u8; WORD_PLACES]) -> u8x64 {
    let further = sums.swizzle_dyn_within::<16>(u8x64::from_array(on));
    sums + (further & u8x64::from_array(have))
}

/// The sums over all sixteens before that of each place, by the sums over each sixteen.
#[inline(always)]
fn sums_before(whole: u8x64) -> u8x64 {
    let one = sixteen_before(whole);
    let two = sixteen_before(whole + one);
    sixteen_before(whole + two)
}

/// What stands sixteen places before each place, and 0 at the first sixteen.
#[inline(always)]
fn sixteen_before(bytes: u8x64) -> u8x64 {
    bytes.swizzle(SIXTEEN_ON) & mask_of_places(SIXTEEN, WORD_PLACES)
}
