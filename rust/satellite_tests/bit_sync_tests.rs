// Made by tools/rust of crates/satellite_tests/src/bit_sync_tests.rt: change that.
//! Pushes by hand: where the edge is, what resets the search, and what a bit is.

use crate::kit::std::HostRuntime;
use crate::satellite_tests::asserted::{assert_same_at, assert_that};
use crate::bit_sync::{BitNews, BitSync, MOST_PUSH};
use crate::kit::std::process::Abort;

/// Sums from a push on: its number, the length of a run, how many runs are counted before push 0,
/// and the sums of even and of odd runs. Runs are counted from push 0, and one of length 0 doesn't
/// end.
type Stretch = (u32, u32, u32, [i32; 2]);

/// So many pushes of these sums, and what comes with some of them. With the others comes nothing.
struct Case {
    name: &'static str,
    pushes: u32,
    sums: &'static [Stretch],
    /// The push that brings the edge: there is one after it, and none before.
    edge: u32,
    news: &'static [(u32, BitNews)],
}

/// A number that no push has.
const NEVER: u32 = u32::MAX;

static CASES: [Case; 5] = [
    // 20 times +1, 20 times -1, and so on: pushes 20, 40, .. 320 are the changes, all at place 0.
    Case {
        name: "edge counts",
        pushes: 400,
        sums: &[(0, 20, 0, [1, -1])],
        edge: 320,
        news: &[
            (320, BitNews::Edge),
            (339, BitNews::Bit(false)),
            (359, BitNews::Bit(true)),
            (379, BitNews::Bit(false)),
            (399, BitNews::Bit(true)),
        ],
    },
    // Each place has a change in every 20 pushes, so that two places have four of them again and
    // again before one has sixteen.
    Case {
        name: "changes at every push",
        pushes: 2_000,
        sums: &[(0, 1, 0, [1, -1])],
        edge: NEVER,
        news: &[],
    },
    // The sign turns at pushes 10, 20, .. 80, and then at 100, 120, .. alone. Place 10 has its
    // fourth change at push 70, and place 0 its fourth at push 80. So there all is counted anew,
    // the change at push 80 among what is forgotten, and the sixteenth change at place 0 since is
    // at push 80 + 16 * 20 = 400. (With no reset it would be at 320, and with the change at the
    // reset counted at 380.) The sign turns 8 times up to push 80 and 16 times after it up to push
    // 400, so that it is + from there on: bit 0 is 0, and bit 1 is 1.
    Case {
        name: "a reset decides",
        pushes: 440,
        sums: &[(0, 10, 0, [1, -1]), (80, 20, 4, [1, -1])],
        edge: 400,
        news: &[
            (400, BitNews::Edge),
            (419, BitNews::Bit(false)),
            (439, BitNews::Bit(true)),
        ],
    },
    // A bit is 1 where its pushes sum up to less than zero, whatever their signs, and 0 where they
    // sum up to 0. The edge is push 320, as above. Bit 0 is nineteen times +1 and once -19: 0 in
    // sum. Bit 1 is nineteen times +1 and once -20: -1 in sum.
    Case {
        name: "the sum decides",
        pushes: 360,
        sums: &[
            (0, 20, 0, [1, -1]),
            (320, 0, 0, [1, 1]),
            (339, 0, 0, [-19, -19]),
            (340, 0, 0, [1, 1]),
            (359, 0, 0, [-20, -20]),
        ],
        edge: 320,
        news: &[
            (320, BitNews::Edge),
            (339, BitNews::Bit(false)),
            (359, BitNews::Bit(true)),
        ],
    },
    // Zero isn't below zero: a run of zeros after +1 is no change, and one after -1 is.
    Case {
        name: "zero is not negative",
        pushes: 321,
        sums: &[(0, 20, 0, [0, -262_144])],
        edge: 320,
        news: &[(320, BitNews::Edge)],
    },
];

#[test]
fn pushes_by_hand() {
    let rt = HostRuntime;
    for case in &CASES {
        follow(&rt, case);
    }
}

/// Follows the pushes of a case.
fn follow(rt: &impl Abort, case: &Case) {
    let mut sync = BitSync::new();
    for k in 0..case.pushes {
        assert_push(rt, &mut sync, k, case);
    }
}

/// Pushes sum number `k`, and asserts what comes with it, and whether there is an edge before it
/// and after it.
fn assert_push(rt: &impl Abort, sync: &mut BitSync, k: u32, case: &Case) {
    let ip = sum_of(case.sums, k);
    assert_that(rt, ip.unsigned_abs() <= MOST_PUSH);
    let found = (sync.has_edge(), sync.push(ip), sync.has_edge());
    let expected = (case.edge < k, news_of(case.news, k), case.edge <= k);
    assert_same_at(rt, (case.name, k), found, expected);
}

/// Sum number `k`.
fn sum_of(stretches: &[Stretch], k: u32) -> i32 {
    let mut sum = 0;
    for &(first, run, turns, [even, odd]) in stretches {
        if first <= k {
            let turns = k.checked_div(run).unwrap_or(0).wrapping_add(turns);
            sum = if turns % 2 == 1 { odd } else { even };
        }
    }
    sum
}

fn news_of(rows: &[(u32, BitNews)], k: u32) -> BitNews {
    for (push, news) in rows {
        if *push == k {
            return *news;
        }
    }
    BitNews::Nothing
}
