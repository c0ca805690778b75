// Made by tools/rust of crates/bank_tests/src/channel_slots_tests/searches.rt: change that.
//! Searches of a bank, over its one history of samples.

use crate::kit::std::HostRuntime;
use super::{acquire, hears, new_bank};
use crate::bank_tests::asserted::{assert_same, assert_that};
use crate::acquisition::Cell;
use crate::ca_codes::Prn;
use crate::channel_slots::{Bank, Event, SlotEvent, SlotNo};
use crate::made_signals::long_code_file;
use crate::oscillators::HalfChip;
use crate::sample_planes::{Format, PackedSamples};
use crate::kit::std::alloc::{Alloc, Global};
use crate::kit::std::process::Abort;

/// What slot 0 of client 1 emits where it finds satellite 1 at a half chip. All products are 2 in
/// phase and -1 in quadrature there.
fn named(rt: &impl Abort, half: u16) -> SlotEvent {
    let event = Event::Acquired {
        prn: Prn::new(1).expect((rt, "no such satellite").1),
        cell: Cell {
            bin: 0,
            half: HalfChip::new(half).expect((rt, "no such half chip").1),
            power: 20_930_580,
            found: true,
        },
    };
    SlotEvent {
        client: 1,
        slot: 0,
        time: 10_232,
        event,
    }
}

/// Feeds a bank so many more samples of a recording of 10,240, or those that are left, and sees
/// that satellite 1 is found at a half chip with number 10,231, and nothing else comes.
fn hear_next(
    rt: &(impl Abort + Alloc<A = Global>),
    bank: &mut Bank,
    recording: &PackedSamples,
    half: u16,
    piece: usize,
) {
    let from = bank.time();
    assert_that(rt, from <= 10_240);
    assert_that(rt, recording.len() == 10_240);
    let count = piece.min(10_240 - from as usize);
    let run = recording.part(from as usize, count);
    if from < 10_232 && 10_232 <= from + count as u64 {
        hears(rt, bank, &run, &[named(rt, half)]);
    } else {
        hears(rt, bank, &run, &[]);
    }
}

/// A number of samples, and how many such pieces there are of 10,238 samples.
type Pieces = (usize, u32);

/// Sees that a bank that is asked at sample 2 finds satellite 1 at a half chip of a recording,
/// which it takes in pieces.
fn hear(
    rt: &(impl Abort + Alloc<A = Global>),
    recording: &PackedSamples,
    half: u16,
    (piece, pieces): Pieces,
) {
    let mut bank = new_bank(rt, &[4]);
    hear_next(rt, &mut bank, recording, half, 2);
    bank.command(1, acquire(rt, 10));
    for _ in 0..pieces {
        hear_next(rt, &mut bank, recording, half, piece);
    }
    assert_same(rt, bank.time(), 10_240);
}

/// Sees that it does so wherever in a byte the recording begins, which is as many half chips later.
fn hear_from_each_place(rt: &(impl Abort + Alloc<A = Global>), pieces: Pieces) {
    let bytes = long_code_file();
    let recording = PackedSamples::new(Format::Real1, &bytes);
    for first in 0..8u16 {
        let part = recording.part(first as usize, 10_240);
        hear(rt, &part, first + 2, pieces);
    }
}

#[test]
fn recordings_from_each_place_of_a_byte() {
    let rt = HostRuntime;
    for pieces in [(1, 10_238), (3, 3_413), (1_024, 10)] {
        hear_from_each_place(&rt, pieces);
    }
}

/// A client, one of its slots, and how many cells its search has done.
type Done = (u8, u8, Option<u64>);

/// Sees how many cells the searches of these slots have done.
fn have_done(rt: &impl Abort, bank: &Bank, rows: &[Done]) {
    for &(client, slot, cells) in rows {
        let place = SlotNo::new(slot).expect((rt, "no such slot").1);
        let done = bank.cells_done(client, place);
        assert_same(rt, (client, slot, done), (client, slot, cells));
    }
}

/// Before there are samples. There is no client 0 or 9, and no slot 7 of client 1.
static DONE_AT_0: [Done; 5] = [
    (1, 0, Some(0)),
    (1, 1, None),
    (0, 3, None),
    (9, 0, None),
    (1, 7, None),
];

// The dwell has 2,046 samples. 1,026 more are 256 cells.
#[test]
fn cells_of_slots() {
    let rt = HostRuntime;
    let rt = &rt;
    let mut bank = new_bank(rt, &[4]);
    have_done(rt, &bank, &[(1, 0, None)]);
    bank.command(1, acquire(rt, 1_000));
    have_done(rt, &bank, &DONE_AT_0);
    for _ in 0..3 {
        let ones = PackedSamples::new(Format::Real1, &[0; 128]);
        hears(rt, &mut bank, &ones, &[]);
    }
    have_done(rt, &bank, &[(1, 0, Some(256))]);
}
