// Made by tools/rust of crates/programs_tests/src/recordings_tests.rt: change that.
//! What values are like, what a packer holds, and what a stretch takes, worked out by hand.
//! `tools/pack-check` sees what is packed of recordings, over the built program.

use crate::kit::std::HostRuntime;
use crate::kit::std::vec::Vec;
use crate::programs_tests::asserted::{assert_same, assert_that};
use crate::programs_tests::choices::{packer_of, recipe_of, signs};
use crate::recordings::{Choice, Measure, Packer, Stretch, ValueKind};
use crate::sample_planes::Format;
use crate::kit::std::alloc::{Alloc, Global};
use crate::kit::std::process::Abort;

/// What the values of some bytes are like. Readings are twice the values, and so are centres,
/// thresholds and distances.
#[derive(Clone, Copy)]
struct Row {
    kind: ValueKind,
    /// Whether the values are pairs, of which the parts in quadrature have their sign turned.
    is_paired: bool,
    /// The centres in phase and in quadrature.
    centres: (i32, i32),
    /// Whether it is the part in quadrature that is measured.
    is_q: bool,
    threshold: u64,
    bytes: &'static [u8],
    measure: Measure,
}

/// Three pairs of 16 bits, the high byte first, and three bytes of a fourth: (2, 4), (-2, 1) and
/// (-1, 2).
const PAIRS: &[u8] = &[
    0x00, 0x02, 0x00, 0x04, 0xff, 0xfe, 0x00, 0x01, 0xff, 0xff, 0x00, 0x02, 0x80, 0x00, 0x7f,
];

/// The part in phase of these, about the nearest half to its mean.
const OF_PAIRS: Row = Row {
    kind: ValueKind::I16Be,
    is_paired: true,
    centres: (-1, 5),
    is_q: false,
    threshold: 3,
    bytes: PAIRS,
    measure: Measure {
        count: 3,
        sum: -2,
        squares: 35,
        at_ends: 0,
        shares: [0, 1, 2, 0],
    },
};

static MEASURED: [Row; 5] = [
    // Bytes without a sign about 127.5, the threshold 60, so 255 and 120 in readings. The readings
    // are 0, 510, 260, 254, 510, 258 and 256, which add up to 2048: the mean is 1024/7. Their
    // distances are 255, 255, 5, 1, 255, 3 and 1, with the squares 3 * 65025 + 25 + 1 + 9 + 1 =
    // 195111. At the ends are 0 and both 255. Not below the centre are 130, 129 and 128, which are
    // near, and both 255, which are far; below it are 127, which is near, and 0, which is far.
    Row {
        kind: ValueKind::U8,
        is_paired: false,
        centres: (255, 255),
        is_q: false,
        threshold: 120,
        bytes: &[0, 255, 130, 127, 255, 129, 128],
        measure: Measure {
            count: 7,
            sum: 2048,
            squares: 195_111,
            at_ends: 3,
            shares: [3, 2, 1, 1],
        },
    },
    // In phase the readings 4, -4 and -2 add up to -2: the mean is -1/3, to the nearest half -0.5.
    // Their distances from it are 5, 3 and 1, with the squares 25 + 9 + 1 = 35. 2 is above -0.5 and
    // far from it. -2 and -1 are below it and near, -2 just at the threshold.
    //
    // In quadrature 8, 2 and 4 add up to 14: the mean is 7/3, to the nearest half 2.5. Their
    // distances are 3, 3 and 1, with the squares 9 + 9 + 1 = 19. Of both parts the mean square is
    // 54/6 = 9, so the threshold is 3, which is 1.5. The sign is turned: 4 is above 2.5, and 1 and
    // 2 are below, all near.
    OF_PAIRS,
    Row {
        is_q: true,
        measure: Measure {
            count: 3,
            sum: 14,
            squares: 19,
            at_ends: 0,
            shares: [2, 0, 1, 0],
        },
        ..OF_PAIRS
    },
    // Of the whole numbers in 35/3 and 19/3 the mean square would be 17/2, and the threshold 2: by
    // this -2 is far.
    Row {
        threshold: 2,
        measure: Measure {
            count: 3,
            sum: -2,
            squares: 35,
            at_ends: 0,
            shares: [0, 1, 1, 1],
        },
        ..OF_PAIRS
    },
    // One byte of four values of two bits, the earliest in its low bits: 00 is 1, 01 is 3, 10 is -3
    // and 11 is -1. So the readings are 2, 6, -6 and -2, which add up to 0, with the squares 4 + 36
    // + 36 + 4 = 80. 3 and -3 are the ends of the range, and farther from 0 than 2.
    Row {
        kind: ValueKind::Bits2Low,
        is_paired: false,
        centres: (0, 0),
        is_q: false,
        threshold: 4,
        bytes: &[0xe4],
        measure: Measure {
            count: 4,
            sum: 0,
            squares: 80,
            at_ends: 2,
            shares: [1, 1, 1, 1],
        },
    },
];

/// Asserts what the values of some bytes are like.
fn assert_measured(rt: &impl Abort, row: &Row) {
    let format = if row.is_paired {
        Format::Iq1
    } else {
        Format::Real1
    };
    let recipe = recipe_of(
        rt,
        &Choice {
            centre: row.centres.0,
            centre_q: row.centres.1,
            is_conjugate: row.is_paired,
            ..signs(row.kind, row.is_paired, format)
        },
    );
    assert_that(rt, row.bytes.len() <= 1 << 20);
    let found = if row.is_q {
        recipe.measure(&recipe.quadrature, row.threshold, row.bytes)
    } else {
        recipe.measure(&recipe.in_phase, row.threshold, row.bytes)
    };
    assert_same(rt, &found, &row.measure);
}

#[test]
fn measures() {
    let rt = HostRuntime;
    for row in &MEASURED {
        assert_measured(&rt, row);
    }
}

#[test]
fn a_stretch_of_pieces() {
    let rt = HostRuntime;
    let rt = &rt;
    let mut stretch = Stretch::new(3, 4);
    assert_part(rt, &mut stretch, &[0, 1], &[], false);
    assert_part(rt, &mut stretch, &[2, 3, 4], &[3, 4], false);
    assert_part(rt, &mut stretch, &[5, 6, 7], &[5, 6], true);
    assert_part(rt, &mut stretch, &[8], &[], true);
}

/// Asserts what a stretch takes of a piece, and whether it is over then.
fn assert_part(rt: &impl Abort, stretch: &mut Stretch, piece: &[u8], part: &[u8], is_over: bool) {
    assert_same(rt, stretch.part(piece), part);
    assert_that(rt, stretch.is_over() == is_over);
}

// A pair has 32 bits: 25 bytes are six pairs and a byte, and with three more they are seven.
#[test]
fn what_is_left() {
    let rt = HostRuntime;
    let rt = &rt;
    assert_same(rt, ValueKind::I16.bits(), 16);
    let below = Choice {
        centre: 1000,
        centre_q: 1000,
        ..signs(ValueKind::I16, true, Format::Iq1)
    };
    let mut packer = packer_of(rt, &below);
    assert_left(rt, &mut packer, &[0; 25], &[0xff], (2, true));
    assert_left(rt, &mut packer, &[0; 3], &[], (3, false));
}

/// Asserts what is written with a piece, how many samples are held after it, and whether it ends
/// inside one.
fn assert_left(
    rt: &(impl Abort + Alloc<A = Global>),
    packer: &mut Packer,
    piece: &[u8],
    expected: &[u8],
    left: (usize, bool),
) {
    let mut written = Vec::new(rt.alloc());
    packer.take(piece, &mut written).expect((rt, "not packed").1);
    let found = (
        written.as_slice(),
        (packer.samples_held(), packer.ends_inside()),
    );
    assert_same(rt, found, (expected, left));
}
