// Made by tools/rust of crates/satellite_tests/src/channels_tests/locks.rt: change that.
//! Messages over several locks: nothing that was read in one is used in the next.

use crate::kit::std::HostRuntime;
use crate::satellite_tests::almanacs::Almanac;
use crate::satellite_tests::asserted::{assert_same, assert_same_at, assert_that};
use crate::satellite_tests::sent::{FIFTH_HANDOVER, TELEMETRY};
use crate::channels::LockedMessage;
use crate::data_sets::AlmanacSet;
use crate::lane_correlator::Counts;
use crate::nav_message::{MOST_BITS, MessageNews};
use crate::kit::std::process::Abort;

/// The almanacs of all satellites for time 5, whose other values are 0.
const ALMANACS: AlmanacSet = AlmanacSet {
    toa: 5,
    health: [0; 32],
};

/// What is read, and how many dumps were taken.
struct Reading {
    message: LockedMessage,
    dumps: u64,
}

impl Reading {
    fn new() -> Reading {
        Reading {
            message: LockedMessage::new(),
            dumps: 0,
        }
    }

    /// Takes a dump whose prompt sum in phase is +1, or -1.
    fn take(&mut self, rt: &impl Abort, is_negative: bool, is_locked: bool) -> MessageNews {
        assert_that(rt, self.dumps < MOST_BITS);
        self.dumps += 1;
        let counts = Counts {
            ip: if is_negative { -1 } else { 1 },
            ..Counts::NONE
        };
        let mut news = MessageNews::Nothing;
        self.message.take(&counts, is_locked, &mut news);
        news
    }

    /// Takes such a dump, which brings no news.
    fn take_nothing(&mut self, rt: &impl Abort, is_negative: bool, is_locked: bool) {
        assert_same(
            rt,
            self.take(rt, is_negative, is_locked),
            MessageNews::Nothing,
        );
    }

    /// Takes the dump of a lock and 360 after it. Their bits alternate up to the edge, which is
    /// found with the sixteenth change and not before, and end in two bits 0.
    fn lock(&mut self, rt: &impl Abort) {
        self.take_nothing(rt, true, true);
        for k in 0..360u32 {
            let news = self.take(rt, k < 340 && k / 20 % 2 == 1, true);
            let edge = (news == MessageNews::Edge, self.message.has_edge());
            assert_same_at(rt, k, edge, (k == 320, 320 <= k));
        }
    }

    /// Takes the dump of an unlock.
    fn unlock(&mut self, rt: &impl Abort) {
        self.take_nothing(rt, false, false);
        assert_that(rt, !self.message.has_edge());
    }

    /// Takes the dumps of a word's bits, the highest first. Only the last may bring news.
    fn take_word(&mut self, rt: &impl Abort, word: u32) -> MessageNews {
        let mut news = MessageNews::Nothing;
        for k in 0..600u32 {
            assert_same_at(rt, k, news, MessageNews::Nothing);
            news = self.take(rt, word >> (29 - k / 20) & 1 == 1, true);
        }
        news
    }

    /// Takes words that bring no news.
    fn take_bare_words(&mut self, rt: &impl Abort, words: &[u32]) {
        for word in words {
            assert_same(rt, self.take_word(rt, *word), MessageNews::Nothing);
        }
    }

    /// Takes the subframe of a satellite's almanac for time 5, whose other values are 0, and sees
    /// that it is reported, with this set.
    fn take_almanac(&mut self, rt: &impl Abort, satellite: u8, set: Option<AlmanacSet>) {
        let almanac = Almanac {
            satellite,
            toa: 5,
            health: 0,
        };
        let words = almanac.words();
        self.take_bare_words(rt, &words[..9]);
        let news = self.take_word(rt, words[9]);
        almanac.assert_reported(rt, &news, set);
    }

    /// Takes the almanacs of so many satellites, of which number 1 comes after number 32, from the
    /// one after `before` on. The last of them completes the set, or none does.
    fn take_almanacs(&mut self, rt: &impl Abort, before: u8, count: u8, is_set: bool) {
        for k in 0..count {
            let satellite = before.wrapping_add(k) % 32 + 1;
            let is_last = k + 1 == count;
            self.take_almanac(rt, satellite, (is_set && is_last).then_some(ALMANACS));
        }
    }
}

// The header and 90 bits of a subframe come before the unlock, and 300 bits after it. The subframe
// would end among these, if its start were kept.
#[test]
fn start_ends_with_the_lock() {
    let rt = HostRuntime;
    let rt = &rt;
    let mut reading = Reading::new();
    reading.lock(rt);
    reading.take_bare_words(rt, &[TELEMETRY, FIFTH_HANDOVER, 0, 0, 0]);
    reading.unlock(rt);
    reading.lock(rt);
    reading.take_bare_words(rt, &[0; 10]);
}

/// After which satellite the almanacs of a lock begin, how many come, and whether the last of them
/// completes the set.
static LOCKS: [(u8, u8, bool); 3] = [(0, 31, false), (31, 32, true), (0, 32, true)];

// The almanacs before the first unlock count no more, so the set is whole with that of satellite
// 31. After the second unlock the same set is reported again.
#[test]
fn almanacs_end_with_the_lock() {
    let rt = HostRuntime;
    let mut reading = Reading::new();
    for &(before, count, is_set) in &LOCKS {
        reading.lock(&rt);
        reading.take_almanacs(&rt, before, count, is_set);
        reading.unlock(&rt);
    }
}
