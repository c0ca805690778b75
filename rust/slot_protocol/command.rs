// Made by tools/rust of crates/slot_protocol/src/command.rt: change that.
//! What a client asks of one of its slots.

use crate::acquisition::{Plan, Signal};

/// The most slots that a client has.
pub const MOST_SLOTS: u8 = 8;

/// The number of a client's slot, 0 to 7; a client with a share of N slots has those below N.
/// Clauses see it as a number.
#[derive(Clone, Copy, Debug, PartialEq, Eq)]
pub struct SlotNo(u8);

impl SlotNo {
    /// The slot with a number, or `None` where that is outside 0 to 7.
    #[must_use]
    pub fn new(number: u8) -> Option<SlotNo> {
        if number < MOST_SLOTS {
            Some(SlotNo(number))
        } else {
            None
        }
    }

    /// The slot's number, 0 to 7.
    #[must_use]
    pub fn get(self) -> u8 {
        self.0
    }
}

/// What a client asks of one of its slots.
#[derive(Clone, Copy, Debug, PartialEq, Eq)]
pub enum Command {
    /// Follow a satellite at a fixed Doppler shift, from a half chip of its code on.
    Hold { slot: SlotNo, signal: Signal },
    /// Track a satellite, from a Doppler shift and a half chip of its code on: its loops steer it.
    Track { slot: SlotNo, signal: Signal },
    /// Search for a satellite, and track it where it is found.
    Acquire { slot: SlotNo, plan: Plan },
    /// Print the next `n` dumps; 0 ends printing.
    Counts { slot: SlotNo, n: u32 },
    /// Show the slot.
    State { slot: SlotNo },
    /// Make the slot idle.
    Stop { slot: SlotNo },
}

impl Command {
    /// The slot that is asked.
    #[must_use]
    pub fn slot(&self) -> SlotNo {
        match self {
            Command::Hold { slot, .. }
            | Command::Track { slot, .. }
            | Command::Acquire { slot, .. }
            | Command::Counts { slot, .. }
            | Command::State { slot }
            | Command::Stop { slot } => *slot,
        }
    }
}
