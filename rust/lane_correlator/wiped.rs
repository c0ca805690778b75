// Made by tools/rust of crates/lane_correlator/src/wiped.rt: change that.
//! 64 samples with their carrier taken off, in lanes of bytes.

use crate::bit_planes::WORD_PLACES;
use crate::kit::lanes::*;

/// Products of the cosine with the sizes of samples, modulo 256: that of each eighth of a cycle,
/// and then three times that of each. They stand there once for each sixteen lanes.
const COSINES: [u8; WORD_PLACES] = [
    2, 1, 255, 254, 254, 255, 1, 2, 6, 3, 253, 250, 250, 253, 3, 6, 2, 1, 255, 254, 254, 255, 1, 2,
    6, 3, 253, 250, 250, 253, 3, 6, 2, 1, 255, 254, 254, 255, 1, 2, 6, 3, 253, 250, 250, 253, 3, 6,
    2, 1, 255, 254, 254, 255, 1, 2, 6, 3, 253, 250, 250, 253, 3, 6,
];

/// Products of the sine with the sizes of samples, as those of the cosine stand.
const SINES: [u8; WORD_PLACES] = [
    1, 2, 2, 1, 255, 254, 254, 255, 3, 6, 6, 3, 253, 250, 250, 253, 1, 2, 2, 1, 255, 254, 254, 255,
    3, 6, 6, 3, 253, 250, 250, 253, 1, 2, 2, 1, 255, 254, 254, 255, 3, 6, 6, 3, 253, 250, 250, 253,
    1, 2, 2, 1, 255, 254, 254, 255, 3, 6, 6, 3, 253, 250, 250, 253,
];

/// Products of minus the sine with the sizes of samples, as those of the cosine stand.
const MINUS_SINES: [u8; WORD_PLACES] = [
    255, 254, 254, 255, 1, 2, 2, 1, 253, 250, 250, 253, 3, 6, 6, 3, 255, 254, 254, 255, 1, 2, 2, 1,
    253, 250, 250, 253, 3, 6, 6, 3, 255, 254, 254, 255, 1, 2, 2, 1, 253, 250, 250, 253, 3, 6, 6, 3,
    255, 254, 254, 255, 1, 2, 2, 1, 253, 250, 250, 253, 3, 6, 6, 3,
];

/// Masks of places from one on. From entry n on stand those of the lanes of places n to 63.
const FROM_PLACE: [u8; 2 * WORD_PLACES] = [
    255, 255, 255, 255, 255, 255, 255, 255, 255, 255, 255, 255, 255, 255, 255, 255, 255, 255, 255,
    255, 255, 255, 255, 255, 255, 255, 255, 255, 255, 255, 255, 255, 255, 255, 255, 255, 255, 255,
    255, 255, 255, 255, 255, 255, 255, 255, 255, 255, 255, 255, 255, 255, 255, 255, 255, 255, 255,
    255, 255, 255, 255, 255, 255, 255, 0, 0, 0, 0, 0, 0, 0, 0, 0, 0, 0, 0, 0, 0, 0, 0, 0, 0, 0, 0,
    0, 0, 0, 0, 0, 0, 0, 0, 0, 0, 0, 0, 0, 0, 0, 0, 0, 0, 0, 0, 0, 0, 0, 0, 0, 0, 0, 0, 0, 0, 0, 0,
    0, 0, 0, 0, 0, 0, 0, 0, 0, 0, 0, 0,
];

/// 64 samples times the conjugate of a carrier: numbers from -9 to 9, modulo 256. Lane k stands for
/// sample 63 - k.
#[derive(Clone, Copy, Debug)]
pub(crate) struct Wiped {
    /// The parts in phase of the 64 products.
    pub(crate) i: u8x64,
    /// The parts in quadrature of the 64 products.
    pub(crate) q: u8x64,
}

impl Wiped {
    /// Samples times the conjugate of a carrier, by the codes of their parts and the eighths of a
    /// cycle that the carrier lies in, 0 to 7. Real samples have no codes in quadrature.
    #[inline(always)]
    pub(crate) fn new(eighths: u8x64, codes: u8x64, codes_q: Option<[u8; WORD_PLACES]>) -> Wiped {
        let at = turned(eighths, codes);
        let i = products(u8x64::from_array(COSINES), at);
        let q = products(u8x64::from_array(MINUS_SINES), at);
        match codes_q {
            None => Wiped { i, q },
            Some(codes) => {
                let at = turned(eighths, u8x64::from_array(codes));
                Wiped {
                    i: i + products(u8x64::from_array(SINES), at),
                    q: q + products(u8x64::from_array(COSINES), at),
                }
            }
        }
    }

    /// The products at places `first` to `end` - 1, and 0 at the others.
    #[inline(always)]
    pub(crate) fn within(self, first: usize, end: usize) -> Wiped {
        let inside = mask_of_places(first, end);
        Wiped {
            i: self.i & inside,
            q: self.q & inside,
        }
    }
}

/// Eighths of a cycle, turned by half a cycle where a sample is below 0, with the size of the
/// sample above them.
#[inline(always)]
fn turned(eighths: u8x64, codes: u8x64) -> u8x64 {
    eighths ^ codes
}

/// Entries of a table of products, by the numbers of lanes. The table stands four times.
#[inline(always)]
fn products(table: u8x64, at: u8x64) -> u8x64 {
    table.swizzle_dyn_within::<16>(at)
}

/// 255 in the lanes of places `first` to `end` - 1, and 0 in the others.
#[inline(always)]
pub(crate) fn mask_of_places(first: usize, end: usize) -> u8x64 {
    assert!(first <= end, "mask_of_places requires first <= end");
    assert!(
        end <= WORD_PLACES,
        "mask_of_places requires end <= WORD_PLACES"
    );
    from_place(&FROM_PLACE, first) ^ from_place(&FROM_PLACE, end)
}

/// 64 entries of a table of masks from one on. It is a table, since a comparison of lanes beside a
/// branch is compiled lane by lane.
#[inline(always)]
fn from_place(masks: &[u8], place: usize) -> u8x64 {
    assert!(
        masks.len() == 2 * WORD_PLACES && place <= WORD_PLACES,
        "from_place requires place <= WORD_PLACES, in a table of twice as many"
    );
    u8x64::from_slice_at(masks, place)
}
