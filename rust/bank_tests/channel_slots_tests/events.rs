// Made by tools/rust of crates/bank_tests/src/channel_slots_tests/events.rt: change that.
//! With how many samples a slot has something to do next: nothing is emitted before.

use crate::kit::std::HostRuntime;
use crate::kit::std::panic;
use super::{acquire, hold, plain_settings, sums};
use crate::bank_tests::asserted::{assert_same, assert_same_at, assert_that};
use crate::bank_tests::commands;
use crate::acquisition::{Cell, SearchRoom};
use crate::ca_codes::{CodeBook, Prn};
use crate::channel_slots::*;
use crate::channels::Window;
use crate::oscillators::HalfChip;
use crate::sample_planes::{Format, PackedSamples, SampleSource};
use crate::kit::std::alloc::{Alloc, Global};
use crate::kit::std::process::Abort;

/// What a slot that follows nothing has to do next: no sample has that number.
const NEVER: u64 = u64::MAX;

/// A slot that was never asked for anything.
fn new_slot(rt: &(impl Abort + Alloc<A = Global>)) -> Slot {
    Slot::new(SearchRoom::new(rt.alloc()).expect((rt, "no memory").1))
}

/// Sees that an idle slot that begins so at a time has something to do with so many samples, and
/// nothing any more where it stops.
fn begins(rt: &impl Abort, slot: &mut Slot, time: u64, begin: Command, next_event: u64) {
    let settings = plain_settings(rt);
    let stop = commands::stop(0).expect((rt, "no such slot").1);
    assert_same(rt, slot.next_event(), NEVER);
    let begun = slot.command(&settings, time, begin);
    assert_same(
        rt,
        (begun, slot.next_event()),
        (Answer::Accepted, next_event),
    );
    let stopped = slot.command(&settings, time, stop);
    assert_same(rt, (stopped, slot.next_event()), (Answer::Accepted, NEVER));
}

/// Sees that it does so with each that begins. At two samples a chip, half a chip before the end of
/// the code, the next sample brings a dump. The dwell of a search has 2,046 samples, and the fourth
/// after it brings a cell.
fn begins_each(rt: &impl Abort, slot: &mut Slot, time: u64) {
    let track = commands::track(0, 1, 0, 2_045).expect((rt, "no such track").1);
    begins(rt, slot, time, hold(rt, 2_045), time + 1);
    begins(rt, slot, time, track, time + 1);
    begins(rt, slot, time, acquire(rt, 10), time + 2_050);
}

// A slot that stopped begins again at a later time.
#[test]
fn an_idle_slot_has_nothing_to_do() {
    let rt = HostRuntime;
    let rt = &rt;
    let mut slot = new_slot(rt);
    begins_each(rt, &mut slot, 0);
    begins_each(rt, &mut slot, 5);
}

/// A slot that is asked so before the first sample.
fn begun(rt: &(impl Abort + Alloc<A = Global>), begin: Command) -> Slot {
    let mut slot = new_slot(rt);
    slot.command(&plain_settings(rt), 0, begin);
    slot
}

/// A window of no sample, with a history of all that a search takes.
fn new_window(rt: &(impl Abort + Alloc<A = Global>)) -> Window {
    Window::new(rt.alloc(), Format::Real1, 16_384).expect((rt, "no memory").1)
}

/// Opens so many samples of value 1, at most 1,024, in place of those that are open.
fn open_ones(rt: &impl Abort, window: &mut Window, count: usize) {
    let ones = PackedSamples::new(Format::Real1, &[0; 128]);
    assert_that(rt, window.end() <= 20_000);
    assert_that(rt, count <= 1_024);
    assert_that(rt, count <= ones.len());
    assert_that(rt, window.history().format() == Format::Real1);
    window.close();
    window.take(&ones.part(0, count));
}

/// What comes with the samples of a window up to number `to`, or with the first of them with which
/// something does. The window's history holds all samples so far.
fn next(rt: &impl Abort, slot: &mut Slot, window: &mut Window, to: u64) -> Option<SlotNews> {
    if window.history().first() != 0 {
        panic!(rt; "the first samples are gone");
    }
    assert_that(rt, to <= window.end());
    assert_that(rt, to <= 20_000);
    slot.take(to, window, &mut CodeBook::new())
}

/// Sees that this comes with the samples of a window, and when something comes next.
fn brings(
    rt: &impl Abort,
    slot: &mut Slot,
    window: &mut Window,
    to: u64,
    wanted: Option<SlotNews>,
    next_event: u64,
) {
    let found = (next(rt, slot, window, to), slot.next_event());
    assert_same(rt, found, (wanted, next_event));
}

// Two chips before the end of the code the fourth sample brings a dump. Up to then the slot takes
// any of them, or none, and emits nothing. Chips 1,020 to 1,022 of satellite 1 are 0 and chip 0 is
// 1, and the carrier's pair is 2, 1: all products are 2 and -1, but of the other sign for the last
// early chip, which is of the next period.
#[test]
fn nothing_comes_before_a_dump() {
    let rt = HostRuntime;
    let rt = &rt;
    let mut slot = begun(rt, hold(rt, 2_042));
    let mut window = new_window(rt);
    open_ones(rt, &mut window, 8);
    assert_same(rt, slot.next_event(), 4);
    for to in 0..4 {
        brings(rt, &mut slot, &mut window, to, None, 4);
    }
    let dump = SlotNews::Dump {
        time: 4,
        is_shown: false,
    };
    brings(rt, &mut slot, &mut window, 8, Some(dump), 2_050);
    let counts = sums([4, -2, 8, -4, 8, -4]);
    assert_same(rt, window.dump().counts, counts);
}

/// Opens so many samples, once the slot has taken all before them, and gives what comes with them.
fn next_after(
    rt: &impl Abort,
    slot: &mut Slot,
    window: &mut Window,
    count: usize,
) -> Option<SlotNews> {
    open_ones(rt, window, count);
    let to = window.end();
    next(rt, slot, window, to)
}

/// What a search for satellite 1 from sample 0 on says with so many more samples: how many cells
/// are done, and with how many samples it has something to do next. The dwell has 2,046 samples,
/// and one of 2,046 cells is done with each fourth sample after it.
type Searched = (usize, u64, u64);

static CELLS: [Searched; 17] = [
    (0, 0, 2_050),
    (1, 0, 2_050),
    (1_024, 0, 2_050),
    (1_021, 0, 2_050),
    (3, 0, 2_050),
    (1, 1, 2_054),
    (3, 1, 2_054),
    (1, 2, 2_058),
    (1_024, 258, 3_082),
    (1_024, 514, 4_106),
    (1_024, 770, 5_130),
    (1_024, 1_026, 6_154),
    (1_024, 1_282, 7_178),
    (1_024, 1_538, 8_202),
    (1_024, 1_794, 9_226),
    (1_004, 2_045, 10_230),
    (3, 2_045, 10_230),
];

/// Sees that a search says so, and emits nothing.
fn searches(rt: &impl Abort, slot: &mut Slot, window: &mut Window, row: &Searched) {
    let &(count, cells, next_event) = row;
    assert_that(rt, next_after(rt, slot, window, count).is_none());
    let found = (slot.cells_done(), slot.next_event());
    assert_same_at(rt, window.end(), found, (Some(cells), next_event));
}

/// What a search names where all samples are alike: the first cell, as all have the power 20.
fn named(rt: &impl Abort, found: bool) -> SlotNews {
    SlotNews::Acquired {
        time: 10_230,
        prn: Prn::new(1).expect((rt, "no such satellite").1),
        cell: Cell {
            bin: 0,
            half: HalfChip::new(0).expect((rt, "no such half chip").1),
            power: 20,
            found,
        },
    }
}

/// Sees what a search answers with the next eleven samples, and when the slot has something to do
/// next. The answer comes with sample 10,229, and nothing with those after it.
fn ends(rt: &impl Abort, slot: &mut Slot, window: &mut Window, found: bool, next_event: u64) {
    let news = next_after(rt, slot, window, 11);
    assert_same(
        rt,
        (news, slot.cells_done()),
        (Some(named(rt, found)), None),
    );
    let to = window.end();
    assert_same(rt, (to, slot.next_event()), (10_240, next_event));
    brings(rt, slot, window, to, None, next_event);
}

/// Sees how a search with a threshold goes, whether it finds the signal, and when the slot has
/// something to do next.
fn searches_ones(
    rt: &(impl Abort + Alloc<A = Global>),
    threshold: u32,
    found: bool,
    next_event: u64,
) {
    let mut slot = begun(rt, acquire(rt, threshold));
    let mut window = new_window(rt);
    for row in &CELLS {
        searches(rt, &mut slot, &mut window, row);
    }
    ends(rt, &mut slot, &mut window, found, next_event);
}

// From its answer on a slot tracks the signal, whose code begins again: its first dump comes 2,046
// samples later. Where nothing was found it is idle.
#[test]
fn a_search_comes_to_its_cells_and_its_answer() {
    let rt = HostRuntime;
    searches_ones(&rt, 10, true, 12_276);
    searches_ones(&rt, 11, false, NEVER);
}
