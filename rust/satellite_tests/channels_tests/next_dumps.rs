// Made by tools/rust of crates/satellite_tests/src/channels_tests/next_dumps.rt: change that.
//! With how many samples dumps come, by the rate of the code.

use crate::kit::std::HostRuntime;
use super::{new_window, open_to, settings, signal};
use crate::satellite_tests::asserted::{assert_same, assert_same_at, assert_that};
use crate::ca_codes::CodeBook;
use crate::channels::{Followed, Window};
use crate::sample_planes::Format;
use crate::kit::std::alloc::{Alloc, Global};
use crate::kit::std::process::Abort;

/// A satellite that is held: the rate of the samples, the shift, half chip and sample from which on
/// it is held, and with how many samples its first three dumps come. A code has 1,023 chips, and
/// 1,023,000 of them come in a second and one more with each 1,540 Hz of shift (IS-GPS-200, section
/// 3.3.1.1): so dump k comes with the first sample that is 1,023 k chips or more after half chip 0.
/// The step is a whole number of 2^-32 chip, rounded down. At 5,000,000 samples a second, where a
/// code would be just 5,000 samples, it takes one more.
static ROWS: [(u32, i32, u16, u64, [u64; 3]); 10] = [
    (2_046_000, 1_250, 700, 0, [1_346, 3_392, 5_438]),
    (2_046_000, -1_000, 2_045, 0, [2, 2_048, 4_094]),
    (2_046_000, 0, 2_045, 0, [1, 2_047, 4_093]),
    (2_046_000, 0, 2_045, 1_001, [1_002, 3_048, 5_094]),
    (2_048_000, 0, 0, 0, [2_048, 4_096, 6_144]),
    (4_092_000, -8_191, 1, 7, [4_098, 8_190, 12_282]),
    (16_368_000, 0, 1, 0, [16_360, 32_728, 49_096]),
    (5_000_000, 0, 0, 0, [5_001, 10_001, 15_001]),
    (20_000_000, 5_000, 2_045, 0, [10, 20_010, 40_010]),
    (20_000_000, -5_000, 0, 3, [20_004, 40_004, 60_004]),
];

/// Opens the next samples, all of which are 1, in place of those that are open.
fn open_next(rt: &impl Abort, window: &mut Window, end: u64) {
    window.close();
    open_to(rt, window, &[0; 7_680], end);
}

/// Takes samples as far as the next dump, at most 1,000 at a time, and gives its time.
fn next_dump(
    rt: &impl Abort,
    held: &mut Followed,
    window: &mut Window,
    book: &mut CodeBook,
) -> Option<u64> {
    for _ in 0..100 {
        let end = window.end();
        assert_that(rt, end <= 61_440);
        assert_that(rt, held.dumps() < 8);
        let time = held.next_dump();
        if held.take(end, window, book) {
            return Some(time);
        }
        open_next(rt, window, end + 1_000);
    }
    None
}

/// Asserts when the first three dumps of a satellite come, and that it says so before.
fn assert_dumps(
    rt: &(impl Abort + Alloc<A = Global>),
    mut held: Followed,
    time: u64,
    dumps: [u64; 3],
) {
    let mut window = new_window(rt, Format::Real1);
    // The samples before it was held.
    open_next(rt, &mut window, time.min(1_000));
    open_next(rt, &mut window, time);
    window.close();
    let mut book = CodeBook::new();
    for k in 0..3usize {
        let (nth, said) = (held.dumps(), held.next_dump());
        let dump = next_dump(rt, &mut held, &mut window, &mut book);
        assert_same_at(
            rt,
            time,
            (nth, said, dump),
            (k as u64, dumps[k], Some(dumps[k])),
        );
    }
    assert_same(rt, held.dumps(), 3);
}

/// The satellite of a row.
fn held(rt: &impl Abort, rate: u32, hz: i32, half: u16, time: u64) -> Followed {
    assert_that(rt, time <= 2_000);
    let settings = settings(rt, rate, 0, Format::Real1);
    Followed::hold(&settings, signal(rt, 5, hz, half), time)
}

#[test]
fn dumps_come_by_the_rate_of_the_code() {
    let rt = HostRuntime;
    for &(rate, hz, half, time, dumps) in &ROWS {
        assert_dumps(&rt, held(&rt, rate, hz, half, time), time, dumps);
    }
}

// A satellite that loops steer comes to its first dump as one that is held, since they set steps
// after it.
#[test]
fn first_dump_of_a_tracked_satellite() {
    let rt = HostRuntime;
    let rt = &rt;
    for &(rate, hz, half, time, dumps) in &ROWS {
        let settings = settings(rt, rate, 0, Format::Real1);
        assert_that(rt, time <= 2_000);
        let tracked = Followed::track(&settings, signal(rt, 5, hz, half), time);
        assert_same_at(
            rt,
            rate,
            (tracked.dumps(), tracked.next_dump()),
            (0, dumps[0]),
        );
    }
}
