// Made by tools/rust of crates/sample_planes/src/layout.rt: change that.
//! Where the samples of a run lie among bytes, and codes of their parts, 64 samples at a time.

use crate::sample_planes::format::BYTE_BITS;
use crate::bit_planes::{WORDS, marked_bytes, pick_from_four};
use crate::kit::lanes::*;

/// The bytes that `MAX_SAMPLES` samples of four bits lie in, wherever they begin in a byte, and
/// those that are read with the last of them.
pub const NEAR_BYTES: usize = 520;

/// The numbers of sixteen samples in each sixteen lanes, the last of them first.
const LAST_FIRST: [u8; 64] = [
    15, 14, 13, 12, 11, 10, 9, 8, 7, 6, 5, 4, 3, 2, 1, 0, 15, 14, 13, 12, 11, 10, 9, 8, 7, 6, 5, 4,
    3, 2, 1, 0, 15, 14, 13, 12, 11, 10, 9, 8, 7, 6, 5, 4, 3, 2, 1, 0, 15, 14, 13, 12, 11, 10, 9, 8,
    7, 6, 5, 4, 3, 2, 1, 0,
];

/// Where the 64 samples of a word lie: lane k stands for sample 63 - k of them.
pub(crate) struct WordLayout {
    /// The bits of a sample.
    width: usize,
    /// The bytes in which the samples lie. Each sixteen lanes have a place of their own to count
    /// from, that of a byte that begins with a sample if the run does.
    bytes: u8x64,
    /// The places of the samples' first bits in their bytes.
    tops: u8x64,
}

impl WordLayout {
    /// The layout of samples of `width` bits, from sample `start` of a byte on.
    pub(crate) fn new(width: usize, start: usize) -> WordLayout {
        let places = first_places(width, start);
        WordLayout {
            width,
            bytes: places >> u8x64::splat(3),
            tops: u8x64::splat(0x80) >> (places & u8x64::splat(7)),
        }
    }

    /// The bytes in which the samples from `64 * w` on lie, that of the first in the last lane.
    #[inline(always)]
    pub(crate) fn bytes(&self, near: &[u8], w: usize) -> u8x64 {
        assert!(w < WORDS, "WordLayout::bytes requires w < WORDS");
        assert!(
            NEAR_BYTES <= near.len(),
            "WordLayout::bytes requires NEAR_BYTES <= near.len()"
        );
        let first = 8 * self.width * w;
        let sixteen = 2 * self.width;
        let at = [
            first + 3 * sixteen,
            first + 2 * sixteen,
            first + sixteen,
            first,
        ];
        pick_from_four(near, at, self.bytes)
    }

    /// Codes of the parts that begin at bit `at` of the samples that lie in some bytes: 4 where
    /// this bit is 1, and, where there are sizes, 8 more where the next one is.
    #[inline(always)]
    pub(crate) fn codes(&self, bytes: u8x64, at: usize, has_sizes: bool) -> u8x64 {
        let signs = marked_bytes(bytes, self.masks(at), 4);
        if has_sizes {
            signs + marked_bytes(bytes, self.masks(at + 1), 8)
        } else {
            signs
        }
    }

    /// The places of bit `at` of the samples in their bytes.
    #[inline(always)]
    fn masks(&self, at: usize) -> u8x64 {
        self.tops >> u8x64::splat(at as u8)
    }
}

/// The places of the first bits of sixteen samples, the first of which is sample `start` of a byte.
/// They are counted from that byte's first bit on, and stand in each sixteen lanes, the last of
/// them first.
#[inline(always)]
fn first_places(width: usize, start: usize) -> u8x64 {
    let numbers = u8x64::splat(start as u8) + u8x64::from_array(LAST_FIRST);
    let two = if width == 1 {
        numbers
    } else {
        numbers + numbers
    };
    if width == 4 { two + two } else { two }
}
