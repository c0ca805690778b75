// Made by tools/rust of crates/satellite_tests/src/frame_sync_tests/words.rt: change that.
//! The words of a subframe, and those that are none.

use crate::kit::std::HostRuntime;
use super::DATA;
use crate::satellite_tests::asserted::{assert_same, assert_same_at, assert_that};
use crate::satellite_tests::sent::{FIRST, SECOND, ZERO, subframe};
use crate::frame_sync::Subframe;
use crate::kit::std::process::Abort;

/// The data of `WORDS` without word 10.
const WITHOUT_TEN: [Option<u32>; 10] = [
    FIRST, SECOND, ZERO, ZERO, ZERO, ZERO, ZERO, ZERO, ZERO, None,
];

#[test]
fn words_of_a_subframe() {
    let rt = HostRuntime;
    assert_words(&rt, DATA, true);
    assert_words(&rt, WITHOUT_TEN, false);
}

static NO_SUBFRAME: [(usize, Option<u32>); 8] = [
    (0, None),
    (1, None),
    (9, Some(1 << 24)),
    (0, Some(0x8a_ffff)),
    (0, Some(0x8c_0000)),
    (1, Some(0)),
    (1, Some(6 << 2)),
    (1, Some(7 << 2)),
];

#[test]
fn words_of_no_subframe() {
    let rt = HostRuntime;
    for (place, word) in &NO_SUBFRAME {
        assert_none(&rt, *place, *word);
    }
}

/// Asserts that subframe 1 at the time count 1 with these words has them.
fn assert_words(rt: &impl Abort, words: [Option<u32>; 10], is_complete: bool) {
    let subframe = subframe(rt, words);
    let told = (subframe.id(), subframe.tow(), subframe.complete());
    assert_same(rt, told, (1, 1, is_complete));
    for place in 0..10usize {
        assert_word(rt, &subframe, place, words[place]);
    }
}

/// Asserts the data of the word after so many.
fn assert_word(rt: &impl Abort, subframe: &Subframe, place: usize, expected: Option<u32>) {
    assert_same_at(rt, place, subframe.word(place + 1), expected);
}

/// Asserts that those of `DATA` with this one at a place are none.
fn assert_none(rt: &impl Abort, place: usize, word: Option<u32>) {
    assert_that(rt, place < 10);
    let mut words = DATA;
    words[place] = word;
    assert_same_at(rt, (word, place), Subframe::from_words(words), None);
}
