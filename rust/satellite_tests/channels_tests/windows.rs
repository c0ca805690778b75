// Made by tools/rust of crates/satellite_tests/src/channels_tests/windows.rt: change that.
//! Windows: which samples are open.

use crate::kit::std::HostRuntime;
use super::{new_window, open_to};
use crate::satellite_tests::asserted::{assert_same, assert_same_at, assert_that};
use crate::channels::Window;
use crate::made_signals::RECORDING;
use crate::sample_planes::{Format, MAX_SAMPLES, SampleSource};
use crate::kit::std::process::Abort;

/// Asserts how many samples there were, and that so many more can be open and not one beside them.
fn assert_room(rt: &impl Abort, window: &Window, end: u64, room: usize) {
    let found = (
        window.end(),
        window.has_room(room),
        window.has_room(room + 1),
    );
    assert_same(rt, found, (end, true, false));
}

/// Whether the window is closed, up to which sample it is opened then, and for how many more there
/// is room.
static ROOMS: [(bool, u64, usize); 7] = [
    (false, 1_000, 24),
    (false, 1_023, 1),
    (false, 1_024, 0),
    (true, 1_024, 1_024),
    (true, 1_025, 1_023),
    (true, 1_025, 1_024),
    (false, 2_049, 0),
];

// At most 1,024 samples are open, a full window has room for an empty run alone, and a window that
// is closed for as many again.
#[test]
fn a_window_has_room_for_1_024_samples() {
    let rt = HostRuntime;
    let mut window = new_window(&rt, Format::Real1);
    assert_room(&rt, &window, 0, 1_024);
    for &(is_closed, end, room) in &ROOMS {
        assert_opened(&rt, &mut window, is_closed, end, room);
    }
}

/// Closes a window, where that is asked for, opens it up to a sample, and asserts its room.
fn assert_opened(rt: &impl Abort, window: &mut Window, is_closed: bool, end: u64, room: usize) {
    if is_closed {
        window.close();
    }
    open_to(rt, window, &RECORDING, end);
    assert_that(rt, room <= MAX_SAMPLES);
    assert_room(rt, window, end, room);
}

// The history of a window holds all its samples while it has room, and those that are open always.
#[test]
fn closed_samples_are_held() {
    let rt = HostRuntime;
    let rt = &rt;
    let mut window = Window::new(rt.alloc(), Format::Real1, 2_048).expect((rt, "no memory").1);
    for end in [1_000, 2_000] {
        open_to(rt, &mut window, &RECORDING, end);
        window.close();
        let held = (window.history().first(), window.history().end());
        assert_same(rt, held, (0, end));
    }
    open_to(rt, &mut window, &RECORDING, 3_024);
    assert_that(rt, window.history().first() <= 976);
    assert_same(rt, window.history().end(), 3_024);
}

/// Sample `n` of the recording: a bit 1 is -1, and the earliest sample of a byte is its top bit.
fn value_at(n: usize) -> i8 {
    if RECORDING[n / 8] >> (7 - n % 8) & 1 == 1 {
        -1
    } else {
        1
    }
}

/// Asserts that so many samples are unpacked, from number `first` of the recording on, and where
/// the last of them is.
fn assert_open(rt: &impl Abort, window: &mut Window, first: usize, len: usize) {
    window.unpack();
    let planes = window.planes();
    assert_same(rt, planes.len(), len);
    for i in 0..planes.len() {
        assert_same_at(rt, i, planes.value(i), value_at(first + i));
    }
}

// The open samples alone are unpacked: also where more of them are open than before, and where
// others are. Their places count from the first that is open.
#[test]
fn open_samples_are_unpacked() {
    let rt = HostRuntime;
    let rt = &rt;
    let mut window = new_window(rt, Format::Real1);
    assert_open(rt, &mut window, 0, 0);
    open_to(rt, &mut window, &RECORDING, 1_000);
    assert_open(rt, &mut window, 0, 1_000);
    assert_open(rt, &mut window, 0, 1_000);
    assert_same(rt, (window.place(0), window.place(1_000)), (0, 1_000));
    open_to(rt, &mut window, &RECORDING, 1_024);
    assert_open(rt, &mut window, 0, 1_024);
    window.close();
    open_to(rt, &mut window, &RECORDING, 1_031);
    open_to(rt, &mut window, &RECORDING, 1_044);
    assert_open(rt, &mut window, 1_024, 20);
    assert_same(rt, (window.place(1_024), window.place(1_044)), (0, 20));
    window.close();
    open_to(rt, &mut window, &RECORDING, 2_068);
    assert_open(rt, &mut window, 1_044, 1_024);
}
