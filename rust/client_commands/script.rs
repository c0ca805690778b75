// Made by tools/rust of crates/client_commands/src/script.rt: change that.
//! A script, read entry by entry.

use crate::client_commands::line::entry;
use crate::client_commands::refusal::LineRefusal;
use crate::client_commands::words::next_line;
use crate::slot_protocol::{Command, MOST_SLOTS};

/// What a line asks, and when.
#[derive(Clone, Copy, Debug, PartialEq, Eq)]
pub struct Timed {
    /// The time in samples, at most 2^40.
    pub time: u64,
    /// A command, or why the line is refused.
    pub what: Result<Command, LineRefusal>,
}

/// What is left of a script. Clauses see it as the entries to come.
pub struct Script<'a> {
    /// The lines that are left.
    text: &'a [u8],
    /// How many slots the client has.
    share: u8,
    /// The time of the line before, or 0.
    before: u64,
}

impl<'a> Script<'a> {
    /// The script of a client that has a share of 1 to `MOST_SLOTS` slots, from its text: lines,
    /// each ended by a line feed, the last one perhaps not.
    pub fn new(text: &'a [u8], share: u8) -> Script<'a> {
        assert!(
            1 <= share && share <= MOST_SLOTS,
            "Script::new requires 1 <= share <= MOST_SLOTS"
        );
        Script {
            text,
            share,
            before: 0,
        }
    }

    /// The next entry, or `None` once the text is used up. Lines without words have none.
    pub fn next(&mut self) -> Option<Timed> {
        while let Some((line, rest)) = next_line(self.text) {
            self.text = rest;
            if let Some(timed) = entry(line, self.before, self.share) {
                self.before = timed.time;
                return Some(timed);
            }
        }
        None
    }
}
