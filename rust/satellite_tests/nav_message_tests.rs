// Made by tools/rust of crates/satellite_tests/src/nav_message_tests.rt: change that.
//! Messages that are pushed sum by sum. The words were worked out by the parity equations
//! (IS-GPS-200, section 20.3.5), and what is expected by hand.

use crate::kit::std::HostRuntime;
use crate::satellite_tests::sent::{FIFTH_HANDOVER, FIRST, HANDOVER, SECOND, TELEMETRY, ZERO};
use crate::data_sets::Report;

mod almanacs;
mod damage;
mod fixture;

use fixture::{Pushed, Step, follow};

/// The data of the handover word of subframe 2, at the time count 1, where it passes.
const OF_TWO: Option<u32> = Some(0x8a);

/// Those of subframe 3.
const OF_THREE: Option<u32> = Some(0x8f);

/// Subframe 1 of zeros, which waits for the two others of its set.
const ONE: Step = Step {
    name: "subframe 1",
    zeros: 0,
    sent: [TELEMETRY, HANDOVER, 0, 0, 0, 0, 0, 0, 0, 0],
    words: [
        FIRST, SECOND, ZERO, ZERO, ZERO, ZERO, ZERO, ZERO, ZERO, ZERO,
    ],
    gap: None,
    page: None,
};

/// Subframe 2 of zeros.
const TWO: Step = Step {
    name: "subframe 2",
    sent: [TELEMETRY, 0x22bc, 0, 0, 0, 0, 0, 0, 0, 0],
    words: [
        FIRST, OF_TWO, ZERO, ZERO, ZERO, ZERO, ZERO, ZERO, ZERO, ZERO,
    ],
    ..ONE
};

/// Subframe 3 of zeros, where it makes no set reported.
const THREE: Step = Step {
    name: "subframe 3",
    sent: [TELEMETRY, 0x23e4, 0, 0, 0, 0, 0, 0, 0, 0],
    words: [
        FIRST, OF_THREE, ZERO, ZERO, ZERO, ZERO, ZERO, ZERO, ZERO, ZERO,
    ],
    ..ONE
};

/// Subframe 3 of zeros, where it makes the set of zeros reported.
const THREE_WITH_SET: Step = Step {
    page: Some(Report::Eph([0; 31])),
    ..THREE
};

/// Subframe 5 with the almanac of satellite 5 for time of applicability 7. With its parity, each
/// second word from word 5 on is sent inverted.
const ALMANAC: Step = Step {
    name: "subframe 5",
    sent: [
        TELEMETRY,
        FIFTH_HANDOVER,
        0x1140_000e,
        0x01c0_0009,
        0x3fff_ffd6,
        0x29,
        0x3fff_ffd6,
        0x29,
        0x3fff_ffd6,
        0x8c,
    ],
    words: [
        FIRST,
        Some(0x94),
        Some(0x45_0000),
        Some(0x07_0000),
        ZERO,
        ZERO,
        ZERO,
        ZERO,
        ZERO,
        Some(2),
    ],
    page: Some(Report::Alm([1, 5, 0, 7, 0, 0, 0, 0, 0, 0, 0, 0, 0])),
    ..ONE
};

static WHOLE: [&[Step]; 3] = [
    // A subframe comes with the last of its 300 bits, and the five bits before the next are its
    // gap. Neither makes a report.
    &[
        ONE,
        Step {
            zeros: 5,
            gap: Some(5),
            ..ONE
        },
    ],
    // Subframes 1, 2 and 3 of zeros, one after the other, are of one issue. The third makes their
    // set reported. The same three again make no set.
    &[ONE, TWO, THREE_WITH_SET, ONE, TWO, THREE],
    // An almanac is reported each time it comes.
    &[ALMANAC, ALMANAC],
];

#[test]
fn whole_subframes() {
    let rt = HostRuntime;
    for steps in &WHOLE {
        follow(&rt, steps);
    }
}

// The edge is reported once, with push 320, the sixteenth change. Bits are whole from push 339 on;
// they report nothing.
#[test]
fn edge_of_alternating_bits() {
    let rt = HostRuntime;
    let mut pushed = Pushed::new();
    for k in 0..1000u32 {
        pushed.push_alternating(&rt, k);
    }
}
