// Made by tools/rust of crates/satellite_tests/src/frame_sync_tests/fixture.rt: change that.
//! Bits as they are sent, and what is found among them.

use crate::satellite_tests::asserted::{assert_same, assert_same_at, assert_that};
use crate::satellite_tests::sent::subframe;
use crate::frame_sync::{Found, FrameSync};
use crate::kit::std::process::Abort;

/// What has to be found with the bit of a number, from 1: the words, and the gap before them. Its
/// name comes first.
pub type Row = (&'static str, u64, [Option<u32>; 10], Option<u64>);

/// A number that no bit has.
pub const NEVER: u64 = u64::MAX;

/// Bits as they are sent: two bits 0, words, so many bits 0 and words again. All that is found
/// among them are the rows.
#[derive(Clone, Copy)]
pub struct Case<'a> {
    pub words: &'a [u32],
    pub zeros: u32,
    pub more: &'a [u32],
    /// From this bit on, from 0, all are inverted.
    pub tail: u64,
    pub rows: &'a [Row],
}

impl Case<'_> {
    /// No words, and nothing to find.
    pub const PLAIN: Case<'static> = Case {
        words: &[],
        zeros: 0,
        more: &[],
        tail: NEVER,
        rows: &[],
    };
}

/// Pushes the bits of a case, and asserts what is found among them.
pub fn follow(rt: &impl Abort, case: &Case) {
    let mut pushed = Pushed::new(case.rows, case.tail);
    pushed.push_bits(rt, 0, 2);
    pushed.push_words(rt, case.words);
    assert_that(rt, case.zeros <= 32);
    pushed.push_bits(rt, 0, case.zeros);
    pushed.push_words(rt, case.more);
    pushed.assert_all(rt);
}

/// Bits that were pushed, and what has to be found among them and those that follow.
pub struct Pushed<'a> {
    sync: FrameSync,
    rows: &'a [Row],
    tail: u64,
    found: usize,
}

impl<'a> Pushed<'a> {
    /// No bits. From bit number `tail` on, from 0, all are pushed inverted.
    pub fn new(rows: &'a [Row], tail: u64) -> Self {
        Pushed {
            sync: FrameSync::new(),
            rows,
            tail,
            found: 0,
        }
    }

    /// Pushes a bit, and asserts that what is found with it is that of the next row.
    pub fn push(&mut self, rt: &impl Abort, bit: bool) {
        assert_that(rt, self.sync.pushed() < 1 << 40);
        let is_inverted = self.tail <= self.sync.pushed();
        if let Some(found) = self.sync.push(bit ^ is_inverted) {
            self.assert_next(rt, found);
        }
    }

    /// Asserts that what was found with the last bit is that of the next row.
    fn assert_next(&mut self, rt: &impl Abort, found: Found) {
        let row = self.rows.get(self.found).expect((rt, "nothing more to find").1);
        let (name, push, words, gap) = *row;
        let expected = Found {
            subframe: subframe(rt, words),
            gap,
        };
        assert_same_at(rt, name, (self.sync.pushed(), found), (push, expected));
        self.found = self.found.wrapping_add(1);
    }

    /// Pushes the low bits of a number, the highest of them first.
    pub fn push_bits(&mut self, rt: &impl Abort, number: u32, count: u32) {
        for behind in (0..count).rev() {
            self.push(rt, number >> behind & 1 == 1);
        }
    }

    /// Pushes words of 30 bits, the highest first.
    pub fn push_words(&mut self, rt: &impl Abort, words: &[u32]) {
        for word in words {
            self.push_bits(rt, *word, 30);
        }
    }

    /// Asserts that all rows were found.
    pub fn assert_all(&self, rt: &impl Abort) {
        assert_same(rt, self.found, self.rows.len());
    }
}
