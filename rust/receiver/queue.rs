// Made by tools/rust of crates/receiver/src/queue.rt: change that.
//! The script of one client, entry by entry.

use crate::client_commands::{Script, Timed};

/// What is left of a client's script: the entry that is next, and the lines after it.
pub struct Queue<'a> {
    next: Option<Timed>,
    rest: Script<'a>,
}

impl<'a> Queue<'a> {
    /// All entries of the script of a client with a share of the slots.
    pub fn new(script: &'a [u8], share: u8) -> Queue<'a> {
        let mut rest = Script::new(script, share);
        let next = rest.next();
        Queue { next, rest }
    }

    /// Takes the entry that is next, where it stands at this time or before it.
    pub fn take_due(&mut self, now: u64) -> Option<Timed> {
        let due = self.next.filter(|timed| timed.time <= now)?;
        self.next = self.rest.next();
        Some(due)
    }

    /// How many samples there are until the entry that is next, and more than any run has where
    /// there is none.
    pub fn gap(&self, now: u64) -> u64 {
        match &self.next {
            Some(timed) => timed.time.saturating_sub(now),
            None => u64::MAX,
        }
    }
}

// The rooms of an array that no script was put into.
impl Default for Queue<'_> {
    fn default() -> Self {
        Queue::new(&[], 1)
    }
}
