// Made by tools/rust of crates/bank_tests/src/printed_lines_tests/subframe_rows.rt: change that.
//! Lines of subframes.

use crate::kit::std::HostRuntime;
use super::*;
use crate::frame_sync::Subframe;

/// Words and their lines.
static SUBFRAMES: [([Option<u32>; 10], &[u8]); 3] = [
    (
        [
            Some(0x8b_0000),
            Some(0x84),
            Some(0),
            Some(0),
            Some(0),
            Some(0),
            Some(0),
            Some(0),
            Some(0),
            Some(0),
        ],
        b"1 0 sub 0 1 1 8b0000 000084 000000 000000 000000 000000 000000 000000 \
        000000 000000\n",
    ),
    (
        [
            Some(0x8b_0000),
            Some(0x84),
            Some(0),
            Some(0),
            None,
            Some(0),
            Some(0),
            Some(0),
            Some(0),
            Some(0),
        ],
        b"1 0 sub 0 1 1 8b0000 000084 000000 000000 ------ 000000 000000 000000 \
        000000 000000\n",
    ),
    (
        [
            Some(0x8b_ffff),
            // The greatest time of week, 17 ones, and ID 5.
            Some(0xff_ff94),
            Some(0xab_cdef),
            Some(0x01_2345),
            Some(0x67_89ab),
            Some(0xf0_0000),
            Some(0x00_0f00),
            Some(0x0a_9090),
            None,
            Some(0xff_ffff),
        ],
        b"1 0 sub 0 5 131071 8bffff ffff94 abcdef 012345 6789ab f00000 000f00 0a9090 ------ \
        ffffff\n",
    ),
];

#[test]
fn words_and_missing_words() {
    let rt = HostRuntime;
    for (words, text) in &SUBFRAMES {
        let told = SlotEvent {
            client: 1,
            slot: 0,
            time: 0,
            event: Event::Sub(Subframe::from_words(*words).expect((&rt, "a subframe").1)),
        };
        assert_text(&rt, &event_line(&told), text);
    }
}
