// Made by tools/rust of crates/channels/src/locked_message.rt: change that.
//! The message of a satellite, from lock to lock.

use crate::lane_correlator::Counts;
use crate::nav_message::{Message, MessageNews};

/// What is read of a message while the loops are locked. Each lock begins a new one, to which the
/// prompt sums of the dumps after it are pushed; where the lock ends it is dropped. It stands for
/// the dumps of the loops.
#[derive(Debug)]
pub struct LockedMessage {
    message: Option<Message>,
}

impl LockedMessage {
    /// There is none before the first dump.
    pub fn new() -> LockedMessage {
        LockedMessage { message: None }
    }

    /// Takes the sums of the next dump, each at most `MOST_SUM` in size, and whether the loops are
    /// locked with it. The message's news replace `news`.
    pub fn take(&mut self, counts: &Counts, is_locked: bool, news: &mut MessageNews) {
        if !is_locked {
            // Some 8 KB are only written where a message ends.
            if self.message.is_some() {
                self.message = None;
            }
            news.clear();
            return;
        }
        match &mut self.message {
            Some(message) => message.push(counts.ip, news),
            None => {
                self.begin();
                news.clear();
            }
        }
    }

    /// Begins a message with a lock. It isn't inlined, since a message is large and this comes
    /// rarely.
    #[cold]
    #[inline(never)]
    fn begin(&mut self) {
        self.message = Some(Message::new());
    }

    /// Whether the edge of the message's bits is found.
    pub fn has_edge(&self) -> bool {
        match &self.message {
            Some(message) => message.has_edge(),
            None => false,
        }
    }
}
