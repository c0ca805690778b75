// Made by tools/rust of crates/channels/src/dump.rt: change that.
//! A dump, and the news that come with it.

use crate::lane_correlator::Counts;
use crate::nav_message::MessageNews;
use crate::tracking_loops::News;

/// The six sums of a segment, and the news that come with them.
#[derive(Clone, Copy, Debug, PartialEq, Eq)]
pub struct Dump {
    /// The sums of the segment.
    pub counts: Counts,
    /// The loops' news of their lock.
    pub lock: News,
    /// The message's news, where the loops are locked.
    pub message: MessageNews,
}

impl Dump {
    /// A dump with its sums alone, without news.
    pub fn plain(counts: Counts) -> Dump {
        Dump {
            counts,
            lock: News::Nothing,
            message: MessageNews::Nothing,
        }
    }

    /// Becomes the dump that `plain` gives. It is large, so only what differs is written.
    pub fn set_plain(&mut self, counts: Counts) {
        self.counts = counts;
        self.lock = News::Nothing;
        self.message.clear();
    }
}
