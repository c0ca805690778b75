// Made by tools/rust of crates/lane_correlator/src/products.rt: change that.
//! The samples of a run without their carrier, added up.

use crate::lane_correlator::running_sums::running_sums;
use crate::lane_correlator::wiped::Wiped;
use crate::bit_planes::WORD_PLACES;
use crate::oscillators::CarrierWords;
use crate::sample_planes::Planes;
use crate::kit::lanes::*;

/// The most products of a word that are added up at once: the sum of so many fits in a byte.
pub const MOST_AT_ONCE: usize = 14;

/// The sums of a word: over no product, over the first one, and so on to that over all of them.
const SUMS: usize = WORD_PLACES + 1;

/// The samples `64 * w` to `64 * w + 63` of a run, each times the conjugate of a carrier. Product j
/// is that of sample `64 * w + j`, where the run has it: a number of at most `MOST_PRODUCT` in
/// size.
#[derive(Clone, Copy, Debug)]
pub struct Products {
    /// The sums of the parts in phase, modulo 256: place k is that over the first 64 - k products.
    in_phase: [u8; SUMS],
    /// The sums of the parts in quadrature.
    quadrature: [u8; SUMS],
}

impl Products {
    /// The products of word `w` of a run with a carrier that stands at the first sample of the
    /// word. The carrier goes on to the next word.
    #[inline(always)]
    pub fn new(samples: &Planes, w: usize, carrier: &mut CarrierWords<'_>) -> Products {
        let eighths = carrier.next_eighths();
        let wiped = Wiped::new(eighths, samples.codes(w), samples.codes_q(w));
        Products {
            in_phase: from_none(running_sums(wiped.i)),
            quadrature: from_none(running_sums(wiped.q)),
        }
    }

    /// The sum of the parts in phase of products `first` to `end` - 1, counted from 0.
    #[inline(always)]
    pub fn in_phase(&self, first: usize, end: usize) -> i32 {
        difference(
            self.in_phase[WORD_PLACES - end],
            self.in_phase[WORD_PLACES - first],
        )
    }

    /// The sum of the parts in quadrature of products `first` to `end` - 1, counted from 0.
    #[inline(always)]
    pub fn quadrature(&self, first: usize, end: usize) -> i32 {
        difference(
            self.quadrature[WORD_PLACES - end],
            self.quadrature[WORD_PLACES - first],
        )
    }
}

/// Sums, with that over nothing after them.
#[inline(always)]
fn from_none(sums: u8x64) -> [u8; SUMS] {
    let mut all = [0; SUMS];
    sums.copy_to_slice(&mut all);
    all
}

/// What a sum modulo 256 is more than another, where that is a number from -128 to 127.
#[inline(always)]
fn difference(sum: u8, other: u8) -> i32 {
    i32::from(sum.wrapping_sub(other).wrapping_add(128)) - 128
}
