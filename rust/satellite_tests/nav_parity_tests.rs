// Made by tools/rust of crates/satellite_tests/src/nav_parity_tests.rt: change that.
//! Words whose data are known from outside, and the words near one of them.

use crate::kit::std::HostRuntime;
use crate::satellite_tests::asserted::{assert_same, assert_same_at};
use crate::satellite_tests::sent::{HANDOVER, HANDOVER_DATA, TELEMETRY, TELEMETRY_DATA};
use crate::nav_parity::{DATA_LIMIT, PRIOR_LIMIT, WORD_LIMIT, check, encode};
use crate::kit::std::process::Abort;

// The telemetry word comes after 00, and the handover word after 10.
#[test]
fn parity_words() {
    let rt = HostRuntime;
    let rt = &rt;
    assert_same(rt, encode(TELEMETRY_DATA, 0), TELEMETRY);
    assert_data(rt, TELEMETRY, 0, TELEMETRY_DATA);
    assert_data(rt, HANDOVER, 2, HANDOVER_DATA);
    // words of zeros, sent inverted
    assert_data(rt, 0x3fff_ffd6, 1, 0);
    assert_data(rt, 0x3fff_ffff, 3, 0);
}

/// Asserts the data of a word after two bits.
fn assert_data(rt: &impl Abort, word: u32, prior: u8, expected: u32) {
    assert_same_at(rt, word, check(word, prior), Some(expected));
}

#[test]
fn three_bit_law() {
    let rt = HostRuntime;
    let after_one = refused(0, 30);
    let mut after_two = 0u32;
    let mut after_three = 0u32;
    for first in 0..30u32 {
        let one = 1 << first;
        after_two = after_two.wrapping_add(refused(one, first));
        for second in 0..first {
            after_three = after_three.wrapping_add(refused(one | (1 << second), second));
        }
    }
    assert_same(&rt, (after_one, after_two, after_three), (30, 435, 4_060));
}

#[test]
fn there_and_back() {
    let rt = HostRuntime;
    let rt = &rt;
    assert_same(rt, checked_code(0x8b_0000, 3), Some(0x8b_0000));
    assert_same(rt, recoded_word(TELEMETRY, 0), Some(TELEMETRY));
    assert_same(rt, recoded_word(TELEMETRY, 1), None);
}

/// For how many places below one the telemetry word with these bits and that changed gives no data.
fn refused(bits: u32, below: u32) -> u32 {
    let mut count = 0u32;
    for place in 0..below {
        let word = changed(bits | (1 << place));
        count = count.wrapping_add(u32::from(check(word, 0).is_none()));
    }
    count
}

/// The telemetry word with these bits changed.
fn changed(bits: u32) -> u32 {
    (TELEMETRY ^ bits) & 0x3fff_ffff
}

/// What `check` answers to `encode`, as the contracts of the two say.
fn checked_code(data: u32, prior: u8) -> Option<u32> {
    check(encode(data, prior), prior)
}

/// What `encode` makes of the data that `check` finds, as the contracts of the two say.
fn recoded_word(word: u32, prior: u8) -> Option<u32> {
    let found = check(word, prior)?;
    Some(encode(found, prior))
}
