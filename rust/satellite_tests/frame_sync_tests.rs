// Made by tools/rust of crates/satellite_tests/src/frame_sync_tests.rt: change that.
//! Subframes among bits that are known, damaged ones too, and among a long stream of all kinds.

use crate::kit::std::HostRuntime;
use crate::satellite_tests::asserted::assert_same;
use crate::satellite_tests::sent::{FIRST, HANDOVER, SECOND, TELEMETRY, ZERO};
use crate::kit::std::process::Abort;

mod fixture;
mod mixture;
mod stream;
mod words;

use fixture::{Case, Row, follow};

/// The words of subframe 1 after two bits 0, eight of them with data of zeros.
const WORDS: [u32; 10] = [TELEMETRY, HANDOVER, 0, 0, 0, 0, 0, 0, 0, 0];

/// The data of `WORDS`.
const DATA: [Option<u32>; 10] = [
    FIRST, SECOND, ZERO, ZERO, ZERO, ZERO, ZERO, ZERO, ZERO, ZERO,
];

/// The data of `WORDS` without word 5.
const WITHOUT_FIVE: [Option<u32>; 10] = [
    FIRST, SECOND, ZERO, ZERO, None, ZERO, ZERO, ZERO, ZERO, ZERO,
];

/// The data of `WORDS` without word 6.
const WITHOUT_SIX: [Option<u32>; 10] = [
    FIRST, SECOND, ZERO, ZERO, ZERO, None, ZERO, ZERO, ZERO, ZERO,
];

/// The data of `WORDS` without words 5 and 6.
const WITHOUT_BOTH: [Option<u32>; 10] = [
    FIRST, SECOND, ZERO, ZERO, None, None, ZERO, ZERO, ZERO, ZERO,
];

/// The data of `WORDS` with those of its header also as words 6 and 7.
const HEADER_AT_SIX: [Option<u32>; 10] = [
    FIRST, SECOND, ZERO, ZERO, ZERO, FIRST, SECOND, ZERO, ZERO, ZERO,
];

static CASES: [Case; 9] = [
    Case {
        words: &WORDS,
        rows: &[("a subframe", 302, DATA, None)],
        ..Case::PLAIN
    },
    Case {
        words: &WORDS,
        tail: 0,
        rows: &[("inverted", 302, DATA, None)],
        ..Case::PLAIN
    },
    Case {
        words: &WORDS,
        zeros: 5,
        more: &WORDS,
        rows: &[
            ("before a gap", 302, DATA, None),
            ("after a gap", 607, DATA, Some(5)),
        ],
        ..Case::PLAIN
    },
    Case {
        words: &[TELEMETRY, HANDOVER, 0, 0, 1 << 29, 0, 0, 0, 0, 0],
        rows: &[("a changed bit", 302, WITHOUT_FIVE, None)],
        ..Case::PLAIN
    },
    // The last bit of word 5 belongs to its parity, and is a prior bit of word 6.
    Case {
        words: &[TELEMETRY, HANDOVER, 0, 0, 1, 0, 0, 0, 0, 0],
        rows: &[("a changed last bit", 302, WITHOUT_BOTH, None)],
        ..Case::PLAIN
    },
    Case {
        words: &WORDS,
        tail: 2 + 150,
        rows: &[("an inverted tail", 302, WITHOUT_SIX, None)],
        ..Case::PLAIN
    },
    Case {
        words: &[0b1000_1011 << 22, 0],
        more: &WORDS,
        rows: &[("after a preamble", 362, DATA, None)],
        ..Case::PLAIN
    },
    Case {
        words: &[TELEMETRY, HANDOVER, 0, 0, 0],
        more: &WORDS,
        rows: &[("a header inside", 302, HEADER_AT_SIX, None)],
        ..Case::PLAIN
    },
    Case {
        words: &[
            TELEMETRY, HANDOVER, 0, 0, 0, TELEMETRY, HANDOVER, 0, 0, 0, 0, 0, 0, 0, 0,
        ],
        more: &WORDS,
        rows: &[
            ("a false header", 302, HEADER_AT_SIX, None),
            ("after a false header", 752, DATA, Some(150)),
        ],
        ..Case::PLAIN
    },
];

#[test]
fn subframe_search() {
    let rt = HostRuntime;
    for case in &CASES {
        follow(&rt, case);
    }
}

#[test]
fn damaged_word() {
    let rt = HostRuntime;
    let rt = &rt;
    let one_bit = assert_damaged(rt, 0, 30);
    let mut two_bits = 0u32;
    let mut three_bits = 0u32;
    for first in 2..30u32 {
        let one = 1 << first;
        two_bits = two_bits.wrapping_add(assert_damaged(rt, one, first));
        for second in 2..first {
            let two = one | (1 << second);
            three_bits = three_bits.wrapping_add(assert_damaged(rt, two, second));
        }
    }
    assert_same(rt, (one_bit, two_bits, three_bits), (28, 378, 3_276));
}

static DAMAGED: [Row; 1] = [("word 5 changed", 302, WITHOUT_FIVE, None)];

/// Asserts that the subframe is found with all words but word 5, where these bits of that are
/// changed, and one more below a place. Gives how many were tried.
fn assert_damaged(rt: &impl Abort, bits: u32, below: u32) -> u32 {
    let mut tried = 0u32;
    for place in 2..below {
        let mut words = WORDS;
        words[4] = bits | (1 << place);
        let case = Case {
            words: &words,
            rows: &DAMAGED,
            ..Case::PLAIN
        };
        follow(rt, &case);
        tried = tried.wrapping_add(1);
    }
    tried
}
