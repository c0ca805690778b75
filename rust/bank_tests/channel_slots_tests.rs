// Made by tools/rust of crates/bank_tests/src/channel_slots_tests.rt: change that.
//! What Rust programs see of slots and banks: `events` has when a slot has something to do,
//! `banks` those of all clients together, and `searches` what a bank searches for. What scripts and
//! lines show of them are rows of `tools/runs-check`.

use crate::kit::std::HostRuntime;
use crate::bank_tests::asserted::assert_same;
use crate::bank_tests::commands;
use crate::channel_slots::*;
use crate::lane_correlator::Counts;
use crate::oscillators::Settings;
use crate::sample_planes::{Format, PackedSamples};
use crate::kit::std::alloc::{Alloc, Global};
use crate::kit::std::process::Abort;

mod banks;
mod events;
mod searches;

/// A recording of one-bit samples at two samples a chip, with the carrier at 0 Hz.
fn plain_settings(rt: &impl Abort) -> Settings {
    Settings::new(2_046_000, 0, Format::Real1).expect((rt, "no such recording").1)
}

/// A hold of satellite 1 in the first slot, at 0 Hz, from a half chip on.
fn hold(rt: &impl Abort, half: u16) -> Command {
    commands::hold(0, 1, 0, half).expect((rt, "no such hold").1)
}

/// A search for satellite 1 in the first slot, at 0 Hz, over one period of its code.
fn acquire(rt: &impl Abort, threshold: u32) -> Command {
    commands::acquire(0, 1, 0, 0, 1, threshold).expect((rt, "no such search").1)
}

/// A bank with these shares, over a plain recording.
fn new_bank(rt: &(impl Abort + Alloc<A = Global>), shares: &[u8]) -> Bank {
    Bank::open(rt.alloc(), plain_settings(rt), shares).expect((rt, "no bank").1)
}

/// The room for the events of a run.
fn new_timeline(rt: &(impl Abort + Alloc<A = Global>)) -> Timeline {
    Timeline::new(rt.alloc()).expect((rt, "no memory").1)
}

/// Sees that a bank takes a run, and that just these events come with it.
fn hears(
    rt: &(impl Abort + Alloc<A = Global>),
    bank: &mut Bank,
    run: &PackedSamples,
    told: &[SlotEvent],
) {
    let mut timeline = new_timeline(rt);
    assert_same(rt, bank.try_feed(run, &mut timeline), Ok(()));
    assert_same(rt, timeline.events(), told);
}

/// Sums in the order of a line of counts.
fn sums([ie, qe, ip, qp, il, ql]: [i32; 6]) -> Counts {
    Counts {
        ie,
        qe,
        ip,
        qp,
        il,
        ql,
    }
}

#[test]
fn slots_are_0_to_7() {
    let rt = HostRuntime;
    let last = SlotNo::new(7).expect((&rt, "no slot 7").1);
    assert_same(&rt, (last.get(), SlotNo::new(8)), (7, None));
}
