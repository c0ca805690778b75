// Made by tools/rust of crates/satellite_tests/src/tracking_loops_tests.rt: change that.
//! Loops over dumps worked out by hand, and the ends of the lock.

use crate::kit::std::HostRuntime;
use crate::satellite_tests::asserted::{assert_same, assert_same_at, assert_that};
use crate::lane_correlator::Counts;
use crate::kit::std::process::Abort;
use crate::tracking_loops::{Loops, News};

fn prompt(ip: i8, qp: i8) -> Counts {
    Counts {
        ip: ip.into(),
        qp: qp.into(),
        ..Counts::NONE
    }
}

/// The news of the next dump.
fn take(rt: &impl Abort, loops: &mut Loops, sums: Counts) -> News {
    assert_that(rt, loops.dumps() < 1_220);
    loops.take(sums)
}

// Errors of -1 and of -3 rounded toward minus infinity: 160 * floor(-4096 / 3) and 16 * floor(-4096
// * 3 / 5).
#[test]
fn loop_steps() {
    let rt = HostRuntime;
    let rt = &rt;
    let mut loops = Loops::start(0);
    let sums = Counts {
        ie: 2,
        qe: 0,
        ip: 1,
        qp: 0,
        il: 1,
        ql: 0,
    };
    assert_same(rt, take(rt, &mut loops, sums), News::Nothing);
    assert_stand(rt, &loops, (0, 39_312, 1));
    let sums = Counts {
        ie: 1,
        qe: 0,
        ip: 2,
        qp: -1,
        il: 2,
        ql: 0,
    };
    assert_same(rt, take(rt, &mut loops, sums), News::Nothing);
    assert_stand(rt, &loops, (-218_560, -39_328, 2));
}

/// Asserts the shift, the correction and the number of dumps.
fn assert_stand(rt: &impl Abort, loops: &Loops, expected: (i64, i64, u64)) {
    assert_same(rt, (loops.v(), loops.w(), loops.dumps()), expected);
}

/// Asserts the shift after the next dump.
fn assert_shift(rt: &impl Abort, loops: &mut Loops, sums: Counts, expected: i64) {
    let _ = take(rt, loops, sums);
    assert_same(rt, loops.v(), expected);
}

/// The shift after a dump, where a phase of 45 degrees is an error of 2048 and nothing turns: v is
/// 6 * 2048 + 170 * 2048 after dump 200, and twice 6 * 2048 + 170 * 2048 after the next.
fn held_shift(dump: u64) -> i64 {
    match dump {
        200 => 360_448,
        201 => 372_736,
        _ => 0,
    }
}

#[test]
fn shift_from_dump_200_on() {
    let rt = HostRuntime;
    let rt = &rt;
    let mut loops = Loops::start(0);
    for dump in 1..202u64 {
        assert_shift(rt, &mut loops, prompt(1, 1), held_shift(dump));
    }
}

/// The first and the last dumps of two stretches whose windows are good; whether their prompt sums
/// are zero, or 2 and 1; up to which dump others are bad; and which dumps bring the lock, its end
/// and the loss. A dump 0 doesn't come.
type Course = ([u64; 4], bool, u64, [u64; 3]);

static COURSES: [Course; 3] = [
    // All windows are bad: 50 of them end with dump 199 + 50 * 20.
    ([0; 4], false, 1_199, [0, 0, 1_199]),
    // One is good, and then all are bad: ten end with dump 219 + 10 * 20, and fifty with dump
    // 219 + 50 * 20.
    ([1, 219, 0, 0], false, 1_219, [219, 419, 1_219]),
    // A good one after nine bad ones begins the run anew, so that the lock ends ten windows after
    // it: 219 + (9 + 1 + 10) * 20. A window of zeros is good.
    ([1, 219, 400, 419], true, 639, [219, 619, 0]),
];

/// The sums of a dump.
fn sums_at(dump: u64, good: [u64; 4], is_zero: bool) -> Counts {
    let is_good = good[0] <= dump && dump <= good[1] || good[2] <= dump && dump <= good[3];
    match (is_good, is_zero) {
        (false, _) => prompt(1, 1),
        (true, false) => prompt(2, 1),
        (true, true) => prompt(0, 0),
    }
}

/// The news of a dump, and whether the loops are locked after it.
fn lock_at(dump: u64, told: [u64; 3]) -> (News, bool) {
    let is_locked = told[0] <= dump && dump < told[1];
    let news = if dump == told[0] {
        News::Lock
    } else if dump == told[1] {
        News::Unlock
    } else if dump == told[2] {
        News::Lost
    } else {
        News::Nothing
    };
    (news, is_locked)
}

#[test]
fn windows_begin_and_end_the_lock() {
    let rt = HostRuntime;
    for &(good, is_zero, last, told) in &COURSES {
        follow(&rt, good, is_zero, last, told);
    }
}

/// Asserts the news of each dump, and whether the loops are locked after it.
fn follow(rt: &impl Abort, good: [u64; 4], is_zero: bool, last: u64, told: [u64; 3]) {
    let mut loops = Loops::start(0);
    for dump in 1..=last {
        let news = take(rt, &mut loops, sums_at(dump, good, is_zero));
        assert_same_at(rt, dump, (news, loops.locked()), lock_at(dump, told));
    }
}

// At the limit of 2^30 errors of +1 are lost: in the frequency (a turn by 90 degrees from dump 1 to
// dump 2, where the scalar product is 0), and in the phase, from dump 200 on.
#[test]
fn shift_is_limited() {
    let rt = HostRuntime;
    let rt = &rt;
    let mut loops = Loops::start(1 << 30);
    let _ = take(rt, &mut loops, prompt(1, 0));
    for _ in 2..210u64 {
        assert_shift(rt, &mut loops, prompt(0, 1), 1 << 30);
    }
    assert_shift(rt, &mut loops, prompt(-1, 1), (1 << 30) - 12_288 - 348_160);
}
