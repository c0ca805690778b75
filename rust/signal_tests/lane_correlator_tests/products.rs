// Made by tools/rust of crates/signal_tests/src/lane_correlator_tests/products.rt: change that.
//! Sums of products of samples with a carrier against those that are worked out one by one.

use crate::kit::std::HostRuntime;
use crate::signal_tests::asserted::assert_same;
use crate::signal_tests::noise::noise_bytes;
use crate::lane_correlator::{MOST_AT_ONCE, Products};
use crate::oscillators::{CarrierOsc, CarrierPlanes};
use crate::sample_planes::{Format, Planes, unpack};

/// How many sums of a run of `len` samples with a carrier are as they are worked out by the parts
/// of each sample and by those of the carrier: all sums over 1 to `MOST_AT_ONCE` samples of a word.
fn right_sums(format: Format, len: usize) -> u32 {
    let bytes = noise_bytes();
    let samples = unpack(format, &bytes, 5, len);
    let mut carrier = CarrierOsc::new(0x9abc_def1);
    carrier.advance(3);
    let values = carrier.planes(samples.len());
    let mut words = carrier.words(0);
    let mut right = 0u32;
    for w in 0..(samples.len() + 63) / 64 {
        let products = Products::new(&samples, w, &mut words);
        let count = (samples.len() - 64 * w).min(64);
        right = right.wrapping_add(right_in_word(&samples, &values, &products, 64 * w, count));
    }
    right
}

/// How many sums are right of the word that begins with sample `from`, which has `count` samples.
fn right_in_word(
    samples: &Planes,
    values: &CarrierPlanes,
    products: &Products,
    from: usize,
    count: usize,
) -> u32 {
    let mut right = 0u32;
    for first in 0..count {
        let most = (count - first).min(MOST_AT_ONCE);
        let sums = right_from(samples, values, products, from, first, first + most);
        right = right.wrapping_add(sums);
    }
    right
}

/// How many sums are right of those that begin with product `first` of a word and end before
/// product `end` at the latest.
fn right_from(
    samples: &Planes,
    values: &CarrierPlanes,
    products: &Products,
    from: usize,
    first: usize,
    end: usize,
) -> u32 {
    let (mut in_phase, mut quadrature) = (0i32, 0i32);
    let mut right = 0u32;
    for j in first..end {
        let i = from + j;
        let (part, part_q) = (i32::from(samples.value(i)), i32::from(samples.value_q(i)));
        let (cos, sin) = (i32::from(values.cos(i)), i32::from(values.sin(i)));
        in_phase = in_phase
            .wrapping_add(part.wrapping_mul(cos))
            .wrapping_add(part_q.wrapping_mul(sin));
        quadrature = quadrature
            .wrapping_add(part_q.wrapping_mul(cos))
            .wrapping_sub(part.wrapping_mul(sin));
        let sum = products.in_phase(first, j + 1);
        if sum == in_phase && products.quadrature(first, j + 1) == quadrature {
            right = right.wrapping_add(1);
        }
    }
    right
}

/// The sums of a word of 64 samples: fourteen from each of its first 51 samples on, and then
/// thirteen, and so on down to one.
#[test]
fn sums_of_every_packing() {
    let rt = HostRuntime;
    let right = [
        right_sums(Format::Real1, 1000),
        right_sums(Format::Real2, 1024),
        right_sums(Format::Iq1, 63),
        right_sums(Format::Iq2, 1000),
    ];
    assert_same(&rt, right, [15 * 805 + 469, 16 * 805, 791, 15 * 805 + 469]);
}
