// Made by tools/rust of crates/satellite_tests/src/nav_message_tests/damage.rt: change that.
//! Subframes whose bits were damaged on their way. Which words pass was worked out by the parity
//! equations (IS-GPS-200, section 20.3.5).

use crate::kit::std::HostRuntime;
use super::fixture::{Pushed, Step, follow};
use super::{OF_THREE, ONE, THREE, THREE_WITH_SET, TWO};
use crate::satellite_tests::sent::{FIRST, HANDOVER, SECOND, TELEMETRY, ZERO};
use crate::kit::std::process::Abort;

/// All bits 1.
const ONES: u32 = 0x3fff_ffff;

static DAMAGED: [&[Step]; 4] = [
    // With a damaged bit in word 7 the subframe is reported without that word, and has no page: the
    // set of three waits for the whole subframe 3.
    &[
        ONE,
        TWO,
        Step {
            name: "a damaged bit",
            sent: [TELEMETRY, 0x23e4, 0, 0, 0, 0, 1 << 20, 0, 0, 0],
            words: [
                FIRST, OF_THREE, ZERO, ZERO, ZERO, ZERO, None, ZERO, ZERO, ZERO,
            ],
            ..THREE
        },
        THREE_WITH_SET,
    ],
    // From word 6 on all bits are inverted. Word 6 has the two bits 0 before it and doesn't pass.
    // The words after it have two bits 1 before them, and pass with the data that were sent.
    &[Step {
        name: "an inverted tail",
        sent: [TELEMETRY, HANDOVER, 0, 0, 0, ONES, ONES, ONES, ONES, ONES],
        words: [
            FIRST, SECOND, ZERO, ZERO, ZERO, None, ZERO, ZERO, ZERO, ZERO,
        ],
        ..ONE
    }],
    // The last bit of word 5 belongs to its parity, and is a prior bit of word 6: neither passes.
    &[Step {
        name: "a changed last bit",
        sent: [TELEMETRY, HANDOVER, 0, 0, 1, 0, 0, 0, 0, 0],
        words: [
            FIRST, SECOND, ZERO, ZERO, None, None, ZERO, ZERO, ZERO, ZERO,
        ],
        ..ONE
    }],
    // A header and three words of zeros, and then the subframe that they would have been. The
    // header is taken as a start, so the first five words of that subframe are words 6 to 10 of the
    // one that is reported. Its other 150 bits are a gap, and the next subframe is whole.
    &[
        Step {
            name: "a false header",
            sent: [TELEMETRY, HANDOVER, 0, 0, 0, TELEMETRY, HANDOVER, 0, 0, 0],
            words: [
                FIRST, SECOND, ZERO, ZERO, ZERO, FIRST, SECOND, ZERO, ZERO, ZERO,
            ],
            ..ONE
        },
        Step {
            zeros: 150,
            gap: Some(150),
            ..ONE
        },
    ],
];

#[test]
fn damaged_subframes() {
    let rt = HostRuntime;
    for steps in &DAMAGED {
        follow(&rt, steps);
    }
}

// Word 5 with one, two or three neighbouring bits changed, but none of its last two, which the next
// word is read with: it alone is missing.
#[test]
fn changed_bits_of_a_word() {
    let rt = HostRuntime;
    let rt = &rt;
    let mut pushed = Pushed::behind_two_zeros(rt);
    assert_changed(rt, &mut pushed, 0b1, 30);
    assert_changed(rt, &mut pushed, 0b11, 29);
    assert_changed(rt, &mut pushed, 0b111, 28);
}

/// Pushes subframes of zeros with these bits of word 5 changed, the lowest of them at each place
/// from 2 up to `end`, and asserts that each is found without that word.
fn assert_changed(rt: &impl Abort, pushed: &mut Pushed, bits: u32, end: u32) {
    let mut step = Step {
        name: "changed bits",
        words: [
            FIRST, SECOND, ZERO, ZERO, None, ZERO, ZERO, ZERO, ZERO, ZERO,
        ],
        ..ONE
    };
    for place in 2..end {
        step.sent[4] = bits.wrapping_shl(place);
        pushed.assert_step(rt, &step);
    }
}
