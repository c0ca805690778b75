// Made by tools/rust of crates/nav_message/src/message.rt: change that.
//! The message that is read from the prompt sums.

use crate::nav_message::news::MessageNews;
use crate::bit_sync::{BitNews, BitSync, MOST_PUSH};
use crate::data_sets::{DataSets, Reports};
use crate::frame_sync::FrameSync;
use crate::subframes::Page;

/// The most bits of a message: those of more than 600 years.
pub const MOST_BITS: u64 = crate::frame_sync::MOST_BITS;

/// What is known of a satellite's message: the edge of its bits, the subframe that is coming in and
/// what is kept of its pages. It stands for the prompt sums that were pushed.
#[derive(Debug)]
pub struct Message {
    bits: BitSync,
    frames: FrameSync,
    sets: DataSets,
}

impl Message {
    /// A message to which nothing was pushed.
    #[must_use]
    pub fn new() -> Message {
        Message {
            bits: BitSync::new(),
            frames: FrameSync::new(),
            sets: DataSets::new(),
        }
    }

    /// Takes the prompt sum in phase of the next dump, at most `MOST_PUSH` of `bit_sync` in size.
    /// What it reports replaces `news`: nothing, the edge of the bits, or a subframe with the gap
    /// before it and what its page makes reported. A bit is 20 dumps (IS-GPS-200, section 3.2.2),
    /// and a subframe 300 bits (section 20.3.2). A message takes up to [`MOST_BITS`] bits. A push
    /// brings one at most. What is reported is large and comes rarely, so the caller keeps the room
    /// for it.
    ///
    /// # Panics
    ///
    /// Plain Rust panics where the sum is larger, or `MOST_BITS` bits have come.
    pub fn push(&mut self, ip: i32, news: &mut MessageNews) {
        assert!(
            ip.unsigned_abs() <= MOST_PUSH,
            "Message::push requires |ip| <= MOST_PUSH"
        );
        assert!(
            self.frames.pushed() < MOST_BITS,
            "Message::push requires fewer bits than MOST_BITS before it"
        );
        match self.bits.push(ip) {
            BitNews::Nothing => news.clear(),
            BitNews::Edge => *news = MessageNews::Edge,
            BitNews::Bit(bit) => self.take_bit(bit, news),
        }
    }

    /// Takes the next bit, and what it makes reported replaces `news`. It stays a call, since most
    /// pushes bring no bit.
    #[inline(never)]
    fn take_bit(&mut self, bit: bool, news: &mut MessageNews) {
        let Some(found) = self.frames.push(bit) else {
            news.clear();
            return;
        };
        let reports = match Page::read(&found.subframe) {
            Some(page) => self.sets.take(&page),
            None => Reports::NONE,
        };
        *news = MessageNews::Frame { found, reports };
    }

    /// Whether the edge of the bits is found.
    #[must_use]
    pub fn has_edge(&self) -> bool {
        self.bits.has_edge()
    }
}

impl Default for Message {
    /// A message to which nothing was pushed.
    fn default() -> Message {
        Message::new()
    }
}
