// Made by tools/rust of crates/signal_tests/src/sample_planes_tests.rt: change that.
//! Bytes whose samples were worked out by hand from the packings, and a plain reading of bits.

use crate::kit::std::HostRuntime;
use crate::signal_tests::asserted::{assert_same, assert_same_at, assert_that};
use crate::signal_tests::noise::noise_bytes;
use crate::signal_tests::parts::assert_samples;
use crate::sample_planes::*;
use crate::kit::std::process::Abort;

/// The codes of parts in phase, and of those in quadrature where there are any.
type Codes = ([u8; 4], Option<[u8; 4]>);

/// Bytes, the parts in phase and in quadrature of their first eight samples, as far as there are
/// any, and the codes of the first four.
static BY_HAND: [(Format, &[u8; 2], ([i8; 8], [i8; 8]), Codes); 4] = [
    (
        Format::Real1,
        &[0xa6, 0],
        ([-1, 1, -1, 1, 1, -1, -1, 1], [0; 8]),
        ([4, 0, 4, 0], None),
    ),
    // 72 is 01 11 00 10: +3, -3, +1, -1.
    (
        Format::Real2,
        &[0x72, 0x1b],
        ([3, -3, 1, -1, 1, 3, -1, -3], [0; 8]),
        ([8, 12, 0, 4], None),
    ),
    // 1B is 00 01 10 11: a sign in phase and one in quadrature each; and 4B is 01 00 10 11.
    (
        Format::Iq1,
        &[0x1b, 0x4b],
        ([1, 1, -1, -1, 1, 1, -1, -1], [1, -1, 1, -1, -1, 1, 1, -1]),
        ([0, 0, 4, 4], Some([0, 4, 0, 4])),
    ),
    // 4B 2D is 0100 1011 0010 1101: (3, 1), (-1, -3), (1, -1), (-3, 3).
    (
        Format::Iq2,
        &[0x4b, 0x2d],
        ([3, -1, 1, -3, 0, 0, 0, 0], [1, -3, -1, 3, 0, 0, 0, 0]),
        ([8, 4, 0, 12], Some([0, 12, 4, 8])),
    ),
];

/// The first eight samples of two bytes, or as many as there are.
fn first_samples(format: Format, bytes: &[u8; 2]) -> Planes {
    unpack(format, bytes, 0, (2 * format.per_byte()).min(8))
}

/// The parts in phase and in quadrature of up to eight samples.
fn parts(planes: &Planes) -> ([i8; 8], [i8; 8]) {
    let mut in_phase = [0; 8];
    let mut quadrature = [0; 8];
    for i in 0..planes.len().min(8) {
        in_phase[i] = planes.value(i);
        quadrature[i] = planes.value_q(i);
    }
    (in_phase, quadrature)
}

/// The codes in the last four lanes, the last first.
fn last_lanes(codes: [u8; 64]) -> [u8; 4] {
    [codes[63], codes[62], codes[61], codes[60]]
}

/// The codes of the first four samples, of which the first is in the last lane.
fn first_codes(planes: &Planes) -> Codes {
    let in_quadrature = match planes.codes_q(0) {
        Some(codes) => Some(last_lanes(codes)),
        None => None,
    };
    (last_lanes(planes.codes(0).to_array()), in_quadrature)
}

#[test]
fn bytes_of_each_packing() {
    let rt = HostRuntime;
    for &(format, bytes, expected, codes) in &BY_HAND {
        let planes = first_samples(format, bytes);
        let found = (parts(&planes), first_codes(&planes));
        assert_same_at(&rt, format, found, (expected, codes));
    }
}

#[test]
fn a_run_begins_inside_a_byte() {
    let rt = HostRuntime;
    assert_samples(
        &rt,
        &unpack(Format::Real1, &[0xff, 0x0f], 7, 3),
        &[-1, 1, 1],
    );
}

#[test]
fn parts_of_two_bits_can_be_3_in_size() {
    let rt = HostRuntime;
    let complex = unpack(Format::Iq2, &[0x1e, 0x2d], 0, 4).has_sizes();
    let real = unpack(Format::Real1, &[0xa6], 0, 8).has_sizes();
    assert_same(&rt, (complex, real), (true, false));
}

/// Of 72 samples the last eight are a6, in the second 64.
static SECOND_WORD: [u8; 9] = [0, 0, 0, 0, 0, 0, 0, 0, 0xa6];

#[test]
fn codes_of_the_second_word() {
    let rt = HostRuntime;
    let planes = unpack(Format::Real1, &SECOND_WORD, 0, 72);
    let codes = planes.codes(1).to_array();
    let next = [codes[59], codes[58], codes[57], codes[56]];
    assert_same(
        &rt,
        (planes.codes(0).to_array(), last_lanes(codes), next),
        ([0; 64], [4, 0, 4, 0], [0, 4, 4, 0]),
    );
}

/// A packing, a byte and a place in it, the bytes from which a sample is put there, the number of
/// that sample, and the byte that comes of it.
type Put = (Format, u8, usize, &'static [u8; 2], usize, u8);

static PUTS: [Put; 8] = [
    // Sample 9 of 00 40 is the only -1; it is put at place 2.
    (Format::Real1, 0x00, 2, &[0x00, 0x40], 9, 0x20),
    (Format::Real1, 0xff, 2, &[0x00, 0x40], 8, 0xdf),
    // Sample 1 of 72 is 11; it is put at place 3.
    (Format::Real2, 0x00, 3, &[0x72, 0x00], 1, 0x03),
    (Format::Real2, 0xff, 0, &[0x72, 0x00], 2, 0x3f),
    // Sample 2 of 1B is 10; it is put at place 1.
    (Format::Iq1, 0x00, 1, &[0x1b, 0x00], 2, 0x20),
    (Format::Iq1, 0xff, 1, &[0x1b, 0x00], 2, 0xef),
    // Sample 3 of 4B 2D is 1101; it is put at either place.
    (Format::Iq2, 0x00, 0, &[0x4b, 0x2d], 3, 0xd0),
    (Format::Iq2, 0x4b, 1, &[0x4b, 0x2d], 3, 0x4d),
];

/// Asserts which byte comes of a sample that is put in it.
fn assert_put(rt: &impl Abort, &(format, byte, place, bytes, n, expected): &Put) {
    assert_that(rt, place < format.per_byte());
    assert_that(rt, n < 2 * format.per_byte());
    assert_same_at(rt, (format, n), format.put(byte, place, bytes, n), expected);
}

#[test]
fn a_sample_is_put_among_others() {
    let rt = HostRuntime;
    for row in &PUTS {
        assert_put(&rt, row);
    }
}

#[test]
fn bytes_hold_eight_four_or_two() {
    let rt = HostRuntime;
    assert_same(
        &rt,
        [
            Format::Real1.per_byte(),
            Format::Real2.per_byte(),
            Format::Iq1.per_byte(),
            Format::Iq2.per_byte(),
        ],
        [8, 4, 4, 2],
    );
    assert_same(&rt, MAX_SAMPLES, 1024);
}

/// Eight samples: 10 11 00 11 01 11 00 01 are -1, -3, +1, -3, +3, -3, +1, +3.
static EIGHT_SAMPLES: [u8; 2] = [0xb3, 0x71];

/// The run of these.
fn eight_samples() -> PackedSamples<'static> {
    PackedSamples::new(Format::Real2, &EIGHT_SAMPLES)
}

#[test]
fn a_run_in_parts() {
    let rt = HostRuntime;
    let rt = &rt;
    let run = eight_samples();
    let (front, back) = run.split_at(5);
    let lens = [run.len(), run.split_at(8).1.len()];
    assert_same(rt, lens, [8, 0]);
    assert_run(rt, &front, &[-1, -3, 1, -3, 3]);
    assert_run(rt, &back, &[-3, 1, 3]);
    // Within a part, samples are counted from its first one.
    assert_run(rt, &back.part(1, 2), &[1, 3]);
}

/// Asserts the samples of a run, and how many it has.
fn assert_run(rt: &impl Abort, run: &PackedSamples, expected: &[i8]) {
    assert_same(rt, run.len(), expected.len());
    assert_that(rt, run.len() <= 1024);
    assert_samples(rt, &run.unpack(), expected);
}

// 4B 2D is 0100 1011 0010 1101 as above, and A6 is 1010 0110.
#[test]
fn kept_planes_hold_the_last_run_alone() {
    let rt = HostRuntime;
    let rt = &rt;
    let mut planes = Planes::new();
    assert_samples(rt, &planes, &[]);
    PackedSamples::new(Format::Iq2, &[0x4b, 0x2d]).unpack_into(&mut planes);
    let complex = ([3, -1, 1, -3, 0, 0, 0, 0], [1, -3, -1, 3, 0, 0, 0, 0]);
    assert_same(rt, (planes.len(), parts(&planes)), (4, complex));
    PackedSamples::new(Format::Real1, &[0xa6])
        .part(0, 3)
        .unpack_into(&mut planes);
    assert_samples(rt, &planes, &[-1, 1, -1]);
    assert_same(rt, planes.has_sizes(), false);
}

// Five samples of two bits from the first byte's last one on: 3 to 7 of the same eight.
#[test]
fn a_run_tells_where_it_lies() {
    let rt = HostRuntime;
    let rt = &rt;
    let run = eight_samples();
    assert_place(rt, &run, &EIGHT_SAMPLES, 0);
    assert_place(rt, &run.part(3, 5), &EIGHT_SAMPLES, 3);
    // From sample 4 on the first byte is passed over.
    assert_place(rt, &run.part(5, 2), &[0x71], 1);
}

/// Asserts the bytes in which a run lies, and the place of its first sample.
fn assert_place(rt: &impl Abort, run: &PackedSamples, bytes: &[u8], first: usize) {
    assert_same(rt, run.place(), (bytes, first));
}

// The same samples, the first of them being number 1,000.
#[test]
fn numbered_samples_keep_their_numbers() {
    let rt = HostRuntime;
    let rt = &rt;
    let source = NumberedSamples::new(eight_samples(), 1_000);
    assert_same(rt, (source.first(), source.end()), (1_000, 1_008));
    assert_samples(rt, &source.planes(1_003, 3), &[-3, 3, -3]);
    assert_samples(rt, &source.planes(1_008, 0), &[]);
}

/// A packing: the bits of a sample, whether its parts have a size, and whether it has two.
static PACKINGS: [(Format, usize, bool, bool); 4] = [
    (Format::Real1, 1, false, false),
    (Format::Real2, 2, true, false),
    (Format::Iq1, 2, false, true),
    (Format::Iq2, 4, true, true),
];

/// Bit number `place` of some bytes.
fn bit(bytes: &[u8; 600], place: usize) -> bool {
    (bytes[place / 8 % 600] >> (7 - place % 8)) & 1 == 1
}

/// The part that bits number `at` and, where it has a size, `at + 1` of some bytes write.
fn part_at(bytes: &[u8; 600], at: usize, has_size: bool) -> i8 {
    let size = if has_size && bit(bytes, at.wrapping_add(1)) {
        3
    } else {
        1
    };
    if bit(bytes, at) { -size } else { size }
}

/// How many samples of a run differ from a plain reading of its bits.
fn differing(row: &(Format, usize, bool, bool), bytes: &[u8; 600], first: usize, len: usize) -> u32 {
    let &(format, width, has_size, is_complex) = row;
    let planes = unpack(format, bytes, first, len);
    let mut differing = 0u32;
    for i in 0..planes.len() {
        let at = width.wrapping_mul(first + i);
        let q = if is_complex {
            part_at(bytes, at.wrapping_add(width / 2), has_size)
        } else {
            0
        };
        if (planes.value(i), planes.value_q(i)) != (part_at(bytes, at, has_size), q) {
            differing = differing.wrapping_add(1);
        }
    }
    differing
}

/// Asserts that a run is read as a plain reading has it.
fn assert_read(
    rt: &impl Abort,
    row: &(Format, usize, bool, bool),
    bytes: &[u8; 600],
    first: usize,
    len: usize,
) {
    assert_same_at(rt, (first, len), differing(row, bytes, first, len), 0);
}

#[test]
fn every_place_of_every_byte() {
    let rt = HostRuntime;
    let bytes = noise_bytes();
    for row in &PACKINGS {
        for first in 0..=16 {
            for len in 0..=70 {
                assert_read(&rt, row, &bytes, first, len);
            }
            assert_read(&rt, row, &bytes, first, 1024);
        }
    }
}
