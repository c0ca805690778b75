// Made by tools/rust of crates/satellite_tests/src/sent.rt: change that.
//! Words as they are sent, and subframes of their data.

use crate::frame_sync::Subframe;
use crate::nav_parity::encode;
use crate::kit::std::process::Abort;

/// The telemetry word after two bits 0.
pub const TELEMETRY: u32 = 0x22c0_0012;

/// The handover word of subframe 1 after it, at the time count 1.
pub const HANDOVER: u32 = 0x0000_2104;

/// The handover word of subframe 5 after it, at the time count 1.
pub const FIFTH_HANDOVER: u32 = 0x2528;

/// The data of that telemetry word.
pub const TELEMETRY_DATA: u32 = 0x8b_0000;

/// The data of that handover word.
pub const HANDOVER_DATA: u32 = 0x84;

/// The data of that telemetry word, where it passes.
pub const FIRST: Option<u32> = Some(TELEMETRY_DATA);

/// The data of that handover word, where it passes.
pub const SECOND: Option<u32> = Some(HANDOVER_DATA);

/// The data of a word of zeros, where it passes.
pub const ZERO: Option<u32> = Some(0);

/// The word with these data, of which d23 and d24 are such that it ends in 0, 0.
pub fn ended(known: u32, prior: u8) -> u32 {
    for last in 0..4 {
        let word = encode(known + last, prior);
        if word % 4 == 0 {
            return word;
        }
    }
    0
}

/// The subframe of these words' data.
pub fn subframe(rt: &impl Abort, words: [Option<u32>; 10]) -> Subframe {
    Subframe::from_words(words).expect((rt, "a subframe").1)
}

/// The subframe with these data of word 2, and of the words from word 3 on.
pub fn subframe_from(rt: &impl Abort, handover: u32, words: [Option<u32>; 8]) -> Subframe {
    let [third, fourth, fifth, sixth, seventh, eighth, ninth, tenth] = words;
    let all = [
        Some(TELEMETRY_DATA),
        Some(handover),
        third,
        fourth,
        fifth,
        sixth,
        seventh,
        eighth,
        ninth,
        tenth,
    ];
    subframe(rt, all)
}
