// Made by tools/rust of crates/satellite_tests/src/channels_tests.rt: change that.
//! The beginning of a recording, and the dumps that two references apart from this project give for
//! it.

use crate::kit::std::HostRuntime;
use crate::kit::std::assert;

mod locks;
mod next_dumps;
mod searching;
mod windows;

use crate::satellite_tests::asserted::{assert_same, assert_that};
use crate::acquisition::Signal;
use crate::ca_codes::{CodeBook, Prn};
use crate::channels::{Dump, Followed, Window};
use crate::lane_correlator::Counts;
use crate::made_signals::RECORDING;
use crate::oscillators::{Doppler, HalfChip, Settings};
use crate::sample_planes::{Format, PackedSamples};
use crate::kit::std::alloc::{Alloc, Global};
use crate::kit::std::process::Abort;

/// Sums in the order of a line of counts.
fn sums([ie, qe, ip, qp, il, ql]: [i32; 6]) -> Counts {
    Counts {
        ie,
        qe,
        ip,
        qp,
        il,
        ql,
    }
}

/// The signal of a satellite by its numbers: the shift in Hz, and the half chip of its code.
fn signal(rt: &impl Abort, prn: u8, hz: i32, half: u16) -> Signal {
    Signal {
        prn: Prn::new(prn).expect((rt, "no such satellite").1),
        doppler: Doppler::new(hz).expect((rt, "no such shift").1),
        half: HalfChip::new(half).expect((rt, "no such half chip").1),
    }
}

/// The settings of a recording at this rate, with the carrier at an offset in Hz.
fn settings(rt: &impl Abort, rate: u32, offset: i64, format: Format) -> Settings {
    Settings::new(rate, offset, format).expect((rt, "no such recording").1)
}

/// Satellite 5, held before the first sample of the recording.
fn held(rt: &impl Abort) -> Followed {
    let settings = settings(rt, 2_046_000, 511_500, Format::Real1);
    Followed::hold(&settings, signal(rt, 5, 1_250, 700), 0)
}

/// A window of no sample, with a history of 1,024.
fn new_window(rt: &(impl Abort + Alloc<A = Global>), format: Format) -> Window {
    Window::new(rt.alloc(), format, 1_024).expect((rt, "no memory").1)
}

/// The most samples of the recording that these tests take.
const RECORDED: u64 = 9_600;

/// Opens the samples of some bytes up to number `end`. There has to be room for them.
fn open_to(rt: &impl Abort, window: &mut Window, bytes: &[u8], end: u64) {
    assert_that(rt, bytes.len() <= 1_000_000);
    let all = PackedSamples::new(window.history().format(), bytes);
    let from = window.end();
    assert!(*rt; from <= end);
    assert!(*rt; end <= all.len() as u64);
    let len = (end - from) as usize;
    assert!(*rt; window.has_room(len));
    window.take(&all.part(from as usize, len));
}

/// Takes the samples of a window up to number `to`, or to the next dump, and gives the number of
/// samples by then, and the dump.
fn next(rt: &impl Abort, held: &mut Followed, window: &mut Window, to: u64) -> (u64, Option<Counts>) {
    assert_that(rt, held.dumps() < 8);
    assert_that(rt, to <= window.end());
    assert_that(rt, to <= RECORDED);
    let time = to.min(held.next_dump());
    let is_dump = held.take(to, window, &mut CodeBook::new());
    (time, is_dump.then_some(window.dump().counts))
}

/// Asserts what `next` gives.
fn assert_next(
    rt: &impl Abort,
    held: &mut Followed,
    window: &mut Window,
    to: u64,
    expected: (u64, Option<Counts>),
) {
    let found = next(rt, held, window, to);
    assert_same(rt, found, expected);
    // What is promised comes from this comparison.
    assert!(*rt; found.0 == expected.0);
}

/// Asserts how many dumps there were, and with how many samples the next one comes.
fn assert_stands(rt: &impl Abort, held: &Followed, dumps: u64, next_dump: u64) {
    assert_same(rt, (held.dumps(), held.next_dump()), (dumps, next_dump));
    // What is promised comes from this comparison.
    assert_that(rt, held.dumps() == dumps);
}

/// The counts of the first segment, which ends with sample 1,345.
fn first_counts() -> Counts {
    sums([-354, -50, -704, -12, -432, -42])
}

// The first segment begins at half chip 700 and ends with sample 1,345; it takes two runs of 1,000
// samples at most. The second is the next 2,046 samples. The dump of a window is zero before the
// first, and stays until the next one comes.
#[test]
fn first_counts_of_a_recording() {
    let rt = HostRuntime;
    let rt = &rt;
    let mut held = held(rt);
    let mut window = new_window(rt, Format::Real1);
    assert_same(rt, held.prn().get(), 5);
    assert_stands(rt, &held, 0, 1_346);
    open_to(rt, &mut window, &RECORDING, 1_000);
    assert_next(rt, &mut held, &mut window, 1_000, (1_000, None));
    assert_same(rt, *window.dump(), Dump::plain(Counts::NONE));
    window.close();
    open_to(rt, &mut window, &RECORDING, 2_000);
    assert_first_dump(rt, &mut held, &mut window);
}

/// Asserts that the first dump comes with sample 1,345 of the 2,000 so far, and stays the window's
/// after the others too.
fn assert_first_dump(rt: &impl Abort, held: &mut Followed, window: &mut Window) {
    let first = first_counts();
    assert_next(rt, held, window, 2_000, (1_346, Some(first)));
    assert_stands(rt, held, 1, 3_392);
    assert_next(rt, held, window, 2_000, (2_000, None));
    window.close();
    assert_same(rt, *window.dump(), Dump::plain(first));
}
