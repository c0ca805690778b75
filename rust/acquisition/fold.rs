// Made by tools/rust of crates/acquisition/src/fold.rt: change that.
//! Samples without their carrier, added up by the half chips at which they lie.

use crate::acquisition::bin_steps::Steps;
use crate::acquisition::half_chip_table::{HALF_CHIPS, HalfChipTable};
use crate::acquisition::half_chip_walk::HalfChipWalk;
use crate::acquisition::sums::Sums;
use crate::bit_planes::WORD_PLACES;
use crate::lane_correlator::{MOST_AT_ONCE, Products};
use crate::oscillators::{CarrierOsc, CodeOsc, HalfChip, MOST_PER_MS};
use crate::sample_planes::{MAX_SAMPLES, MOST_TIME, NEAR_BYTES, Planes, SampleSource};

/// The greatest sum in size whose half, rounded down, fits in 16 bits.
pub(crate) const MOST_SMALL: u32 = (1 << 16) - 1;

/// A period's samples, each times the conjugate of the carrier, added up by the half chips at which
/// they lie for a code that begins at phase 0.
#[derive(Debug)]
pub(crate) struct Fold {
    pub(crate) in_phase: HalfChipTable,
    pub(crate) quadrature: HalfChipTable,
}

impl Fold {
    /// The sums over no samples.
    #[inline(always)]
    pub(crate) fn new() -> Fold {
        Fold {
            in_phase: HalfChipTable::new(),
            quadrature: HalfChipTable::new(),
        }
    }

    /// Makes the fold, which is of no samples, that of samples `first` to `first + len - 1` of a
    /// source, for a code and a carrier that began at phase 0 so many samples before and go by
    /// these steps; `len` is at most `MOST_PER_MS`.
    pub(crate) fn fill<S: SampleSource>(
        &mut self,
        source: &S,
        first: u64,
        before: u64,
        len: usize,
        steps: Steps,
    ) {
        assert!(
            first <= 2 * MOST_TIME,
            "Fold::fill requires first <= 2 * MOST_TIME"
        );
        assert!(
            len <= MOST_PER_MS as usize,
            "Fold::fill requires len <= MOST_PER_MS"
        );
        let mut code = CodeOsc::new(HalfChip::new(0).unwrap(), steps.code);
        let mut carrier = CarrierOsc::new(steps.carrier);
        code.jump(before);
        carrier.advance(before);
        let (mut near, mut samples) = ([0; NEAR_BYTES], Planes::new());
        let mut done = 0;
        while done < len {
            let count = (len - done).min(MAX_SAMPLES);
            source.unpack_into(first + done as u64, count, &mut near, &mut samples);
            self.take(&samples, code.phase(), steps.code, &carrier);
            code.jump(count as u64);
            carrier.advance(count as u64);
            done += count;
        }
    }

    /// Adds a run of samples. The code is at phase `code` at the first of them, and each takes it
    /// `step` on.
    fn take(&mut self, samples: &Planes, code: u64, step: u32, carrier: &CarrierOsc) {
        assert!(0 < step, "Fold::take requires 0 < step");
        let mut words = carrier.words(0);
        let mut walk = HalfChipWalk::new(code, step);
        for w in 0..(samples.len() + 63) / 64 {
            let products = Products::new(samples, w, &mut words);
            let count = (samples.len() - 64 * w).min(64);
            self.take_word(&products, count, &mut walk);
        }
    }

    /// Adds the first `count` products of a word, and walks on past their samples. Those that
    /// follow one another at one half chip are added at once.
    #[inline(always)]
    fn take_word(&mut self, products: &Products, count: usize, walk: &mut HalfChipWalk) {
        assert!(
            count <= WORD_PLACES,
            "Fold::take_word requires count <= WORD_PLACES"
        );
        let mut done = 0;
        while done < count {
            let len = walk.left.min(count - done).min(MOST_AT_ONCE);
            let end = done + len;
            self.in_phase.add(walk.place, products.in_phase(done, end));
            self.quadrature
                .add(walk.place, products.quadrature(done, end));
            walk.pass(len);
            done = end;
        }
    }

    /// Whether half of each sum that it gives with a code fits in 16 bits.
    pub(crate) fn is_small(&self) -> bool {
        self.in_phase.sizes() <= MOST_SMALL && self.quadrature.sizes() <= MOST_SMALL
    }

    /// The sums of all entries.
    pub(crate) fn whole(&self) -> Sums {
        let mut in_phase = 0;
        let mut quadrature = 0;
        for k in 0..HALF_CHIPS {
            in_phase += self.in_phase.sum(k);
            quadrature += self.quadrature.sum(k);
        }
        Sums {
            in_phase,
            quadrature,
        }
    }
}
