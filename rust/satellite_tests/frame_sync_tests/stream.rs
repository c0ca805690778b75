// Made by tools/rust of crates/satellite_tests/src/frame_sync_tests/stream.rt: change that.
//! A long stream of whole subframes, cut ones, bare and false headers, inverted parts and noise,
//! compared with a plain search for the least candidates.

use crate::kit::std::HostRuntime;
use crate::kit::std::vec::Vec;
use super::fixture::{NEVER, Pushed, Row};
use super::mixture::Mixture;
use crate::satellite_tests::asserted::{assert_same, assert_that};
use crate::satellite_tests::sent::subframe;
use crate::nav_parity::check;
use crate::kit::std::alloc::{Alloc, Global};
use crate::kit::std::process::Abort;

const LENGTH: usize = 100_000;

#[test]
fn least_candidates() {
    let rt = HostRuntime;
    let rt = &rt;
    let bits = Mixture::of_length(rt, LENGTH);
    assert_that(rt, bits.len() == LENGTH);
    let rows = candidates(rt, &bits);
    // As a search in another language, over the same stream, has them.
    assert_same(rt, kinds(rt, &rows), (191, 70, 7));
    assert_found(rt, &bits, &rows);
}

/// Asserts that the rows are all that is found among bits.
fn assert_found(rt: &impl Abort, bits: &[bool], rows: &[Row]) {
    let mut pushed = Pushed::new(rows, NEVER);
    for bit in bits {
        pushed.push(rt, *bit);
    }
    pushed.assert_all(rt);
}

/// The least candidates among bits, each with the number of its last bit, from 1.
fn candidates(rt: &(impl Abort + Alloc<A = Global>), bits: &[bool]) -> Vec<Row> {
    let mut rows = Vec::new(rt.alloc());
    let mut from = 0;
    for place in 2..LENGTH - 299 {
        if from <= place && is_candidate(bits, place) {
            let row = row_at(bits, place, from);
            rows.push(row).expect((rt, "no memory").1);
            from = place + 300;
        }
    }
    rows
}

/// The row of a candidate, where the one before it ends before bit `from`. Before the first there
/// is none, and `from` is 0.
fn row_at(bits: &[bool], place: usize, from: usize) -> Row {
    let gap = if from == 0 || place == from {
        None
    } else {
        Some((place - from) as u64)
    };
    ("a stream", (place + 300) as u64, words_at(bits, place), gap)
}

/// How many subframes were found, how many of them are complete, and how many come at once.
fn kinds(rt: &impl Abort, rows: &[Row]) -> (usize, usize, usize) {
    let mut whole = 0usize;
    let mut at_once = 0usize;
    for (_, _, words, gap) in rows {
        whole = whole.wrapping_add(usize::from(subframe(rt, *words).complete()));
        at_once = at_once.wrapping_add(usize::from(gap.is_none()));
    }
    (rows.len(), whole, at_once)
}

/// The ten words from a place on, each where it passes with the two bits before it.
fn words_at(bits: &[bool], place: usize) -> [Option<u32>; 10] {
    let mut words = [None; 10];
    for i in 0..10 {
        words[i] = word_at(bits, place + 30 * i);
    }
    words
}

/// Whether two words at a place are a header.
fn is_candidate(bits: &[bool], place: usize) -> bool {
    let before = number_at(bits, place - 2, 2);
    let (Some(telemetry), Some(handover)) = (word_at(bits, place), word_at(bits, place + 30)) else {
        return false;
    };
    (before == 0 || before == 3)
        && telemetry / 0x1_0000 == 0x8b
        && matches!(handover / 4 % 8, 1..=5)
        && number_at(bits, place + 58, 2) == before
}

/// The data of the word at a place, where it passes.
fn word_at(bits: &[bool], place: usize) -> Option<u32> {
    check(
        number_at(bits, place, 30),
        number_at(bits, place - 2, 2) as u8,
    )
}

/// The number that bits from a place on write.
fn number_at(bits: &[bool], place: usize, count: u32) -> u32 {
    let mut number = 0;
    for bit in &bits[place..place + count as usize] {
        number = number << 1 | u32::from(*bit);
    }
    number & ((1 << count) - 1)
}
