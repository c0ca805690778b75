// Made by tools/rust of crates/signal_tests/src/sample_history_tests.rt: change that.
//! Streams whose bits are computed place by place, taken in pieces of many kinds.

use crate::kit::std::HostRuntime;
use crate::signal_tests::asserted::{assert_same, assert_same_at, assert_that};
use crate::signal_tests::parts::assert_samples;
use crate::sample_history::SampleHistory;
use crate::sample_planes::{Format, MOST_TIME, PackedSamples, Planes, SampleSource};
use crate::kit::std::alloc::{Alloc, Global};
use crate::kit::std::process::Abort;

static FORMATS: [Format; 4] = [Format::Real1, Format::Real2, Format::Iq1, Format::Iq2];

/// A bit of the stream.
fn stream_bit(place: u64) -> u64 {
    (place
        .wrapping_mul(place)
        .wrapping_mul(0x9e37_79b9_7f4a_7c15)
        >> 61)
        & 1
}

/// A part of one bit: a sign.
fn sign(place: u64) -> i8 {
    if stream_bit(place) == 0 { 1 } else { -1 }
}

/// A part of two bits: a sign and a size.
fn signed_size(place: u64) -> i8 {
    let big = stream_bit(place.wrapping_add(1)) == 1;
    match (stream_bit(place) == 0, big) {
        (true, false) => 1,
        (true, true) => 3,
        (false, false) => -1,
        (false, true) => -3,
    }
}

/// The bits of a sample.
fn width(format: Format) -> usize {
    match format {
        Format::Real1 => 1,
        Format::Real2 => 2,
        Format::Iq1 => 2,
        Format::Iq2 => 4,
    }
}

/// The parts of sample `n` of the stream, in phase and in quadrature.
fn sample(format: Format, n: u64) -> (i8, i8) {
    let place = n.wrapping_mul(width(format) as u64);
    match format {
        Format::Real1 => (sign(place), 0),
        Format::Real2 => (signed_size(place), 0),
        Format::Iq1 => (sign(place), sign(place.wrapping_add(1))),
        Format::Iq2 => (signed_size(place), signed_size(place.wrapping_add(2))),
    }
}

/// Bytes in which 1,024 samples of the stream, from sample `from` on, lie from place `first` of
/// the first byte on.
fn stream_bytes(format: Format, from: u64, first: usize) -> [u8; 520] {
    let mut bytes = [0x5a; 520];
    let stream = from.wrapping_mul(width(format) as u64);
    let start = width(format).wrapping_mul(first);
    for k in 0..width(format).wrapping_mul(1024) {
        let place = start.wrapping_add(k);
        let mask = 0x80u8 >> (place % 8);
        if place / 8 < 520 {
            if stream_bit(stream.wrapping_add(k as u64)) == 1 {
                bytes[place / 8] |= mask;
            } else {
                bytes[place / 8] &= !mask;
            }
        }
    }
    bytes
}

/// A history of samples in this packing, which holds at least the last `room` of them.
fn open(rt: &(impl Abort + Alloc<A = Global>), format: Format, room: usize) -> SampleHistory {
    SampleHistory::open(rt.alloc(), format, room).expect((rt, "memory for a history").1)
}

/// The `len` samples of some bytes from sample `first` on.
fn part_of<'a>(
    rt: &impl Abort,
    format: Format,
    bytes: &'a [u8],
    first: usize,
    len: usize,
) -> PackedSamples<'a> {
    let run = PackedSamples::new(format, bytes);
    assert_that(rt, first <= run.len());
    assert_that(rt, len <= run.len() - first);
    run.part(first, len)
}

/// The history takes `len` samples of some bytes from sample `first` on.
fn take_part(rt: &impl Abort, history: &mut SampleHistory, bytes: &[u8], first: usize, len: usize) {
    let run = part_of(rt, history.format(), bytes, first, len);
    assert_that(rt, run.len() <= 1024);
    assert_that(rt, history.end() <= MOST_TIME - 1024);
    history.take(&run);
}

/// The history takes the next `len` samples of the stream, which begin at place `first` of a byte.
fn take_next(rt: &impl Abort, history: &mut SampleHistory, first: usize, len: usize) {
    let bytes = stream_bytes(history.format(), history.end(), first);
    take_part(rt, history, &bytes, first, len);
}

/// The `len` samples of the history from sample `n` on.
fn read(rt: &impl Abort, history: &SampleHistory, n: u64, len: usize) -> Planes {
    assert_that(rt, len <= 1024);
    assert_that(rt, history.first() <= n);
    assert_that(rt, n <= history.end());
    assert_that(rt, len as u64 <= history.end() - n);
    history.planes(n, len)
}

/// Asserts that the history reads `len` samples from sample `n` on as those of the stream.
fn assert_reads(rt: &impl Abort, history: &SampleHistory, n: u64, len: usize) {
    let planes = read(rt, history, n, len);
    assert_same(rt, planes.len(), len);
    for i in 0..planes.len() {
        let expected = sample(history.format(), n.wrapping_add(i as u64));
        assert_same_at(rt, (n, i), (planes.value(i), planes.value_q(i)), expected);
    }
}

/// Asserts that it does so for all samples that it holds, 50 at a time.
fn assert_reads_all(rt: &impl Abort, history: &SampleHistory) {
    let mut n = history.first();
    for _ in 0..200 {
        let len = history.end().saturating_sub(n).min(50);
        assert_reads(rt, history, n, len as usize);
        n = n.saturating_add(len);
    }
    assert_same(rt, n, history.end());
}

// Sample 5 of 00000101 is -1, then come +1 and -1; the next three are the first ones of 01100000.
#[test]
fn two_runs_share_a_byte() {
    let rt = HostRuntime;
    let rt = &rt;
    let mut history = open(rt, Format::Real1, 16);
    take_part(rt, &mut history, &[0x05], 5, 3);
    take_part(rt, &mut history, &[0x60], 0, 3);
    assert_same(rt, (history.first(), history.end()), (0, 6));
    assert_samples(rt, &read(rt, &history, 0, 6), &[-1, 1, -1, 1, -1, -1]);
}

/// A history takes so many runs of `len` samples each, from place `first` of a byte on.
fn assert_runs(
    rt: &(impl Abort + Alloc<A = Global>),
    format: Format,
    first: usize,
    len: usize,
    runs: usize,
) {
    let mut history = open(rt, format, 2_500);
    for _ in 0..runs {
        take_next(rt, &mut history, first, len);
    }
    assert_reads_all(rt, &history);
}

/// Histories take runs of many lengths, from each place of a byte on.
fn runs_of_any_length_at_any_place(rt: &(impl Abort + Alloc<A = Global>), format: Format) {
    for first in 0..format.per_byte() {
        assert_runs(rt, format, first, 1, 40);
        assert_runs(rt, format, first, 3, 40);
        assert_runs(rt, format, first, 1024, 4);
    }
}

/// A history of at least 10 samples takes 300 runs of up to 23.
fn a_small_ring_goes_round_many_times(rt: &(impl Abort + Alloc<A = Global>), format: Format) {
    let mut history = open(rt, format, 10);
    for turn in 0..300usize {
        take_next(rt, &mut history, turn % format.per_byte(), 1 + turn % 23);
        assert_reads_all(rt, &history);
        assert_that(rt, history.first() <= history.end().saturating_sub(10));
    }
}

/// A history of at least 30 samples reads every part of them.
fn reads_of_every_length_at_every_place(rt: &(impl Abort + Alloc<A = Global>), format: Format) {
    let mut history = open(rt, format, 30);
    for _ in 0..9 {
        take_next(rt, &mut history, 1, 11);
    }
    for n in history.first()..history.end() {
        assert_reads_from(rt, &history, n);
    }
}

/// Asserts that the history reads every number of samples from sample `n` on.
fn assert_reads_from(rt: &impl Abort, history: &SampleHistory, n: u64) {
    for len in 0..history.end().saturating_sub(n) {
        assert_reads(rt, history, n, len as usize + 1);
    }
}

#[test]
fn histories_of_every_packing() {
    let rt = HostRuntime;
    let rt = &rt;
    for &format in &FORMATS {
        runs_of_any_length_at_any_place(rt, format);
        a_small_ring_goes_round_many_times(rt, format);
        reads_of_every_length_at_every_place(rt, format);
    }
}

/// A packing, how many samples a history holds at least, the place of a byte where each of its runs
/// begins and its length, and from which sample on and up to which one the history holds them then.
type Kept = (Format, usize, &'static [(usize, usize)], (u64, u64));

// The ring has 4 bytes of 4 samples. After 21 samples 5 bytes were full, so the first is gone.
static OLDEST_GONE: Kept = (
    Format::Real2,
    10,
    &[(1, 13), (1, 0), (1, 6), (1, 2)],
    (4, 21),
);

// One byte of two samples, and the one that was begun.
static NO_ROOM: Kept = (
    Format::Iq2,
    0,
    &[(1, 1024), (1, 1024), (1, 1024), (0, 1)],
    (3_070, 3_073),
);

/// Asserts which samples a history holds after its runs, and that it reads them as those of the
/// stream.
fn assert_kept(rt: &(impl Abort + Alloc<A = Global>), &(format, room, runs, ends): &Kept) {
    let mut history = open(rt, format, room);
    for &(first, len) in runs {
        take_next(rt, &mut history, first, len);
    }
    assert_same(rt, (history.first(), history.end()), ends);
    assert_reads_all(rt, &history);
}

#[test]
fn the_oldest_byte_goes_first() {
    let rt = HostRuntime;
    assert_kept(&rt, &OLDEST_GONE);
}

#[test]
fn a_history_of_no_room_holds_the_last_samples() {
    let rt = HostRuntime;
    assert_kept(&rt, &NO_ROOM);
}
