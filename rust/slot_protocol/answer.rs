// Made by tools/rust of crates/slot_protocol/src/answer.rt: change that.
//! What commands are answered.

use crate::ca_codes::Prn;

/// How far a tracking slot has come with its signal.
#[derive(Clone, Copy, Debug, PartialEq, Eq)]
pub enum Phase {
    /// The loops aren't locked.
    Unlocked,
    /// The loops are locked, and the edge of the data bits isn't found.
    Locked,
    /// The loops are locked, and the edge of the data bits is found.
    Edged,
}

impl Phase {
    /// The phase of a channel that is locked or not, and whose edge is found or not. Where it is
    /// found the channel is locked.
    #[must_use]
    pub fn of(is_locked: bool, has_edge: bool) -> Phase {
        match (is_locked, has_edge) {
            (_, true) => Phase::Edged,
            (true, false) => Phase::Locked,
            (false, false) => Phase::Unlocked,
        }
    }
}

/// What a slot shows of itself.
#[non_exhaustive]
#[derive(Clone, Copy, Debug, PartialEq, Eq)]
pub enum SlotState {
    /// The slot follows nothing.
    Idle,
    /// The slot searches for a satellite, and has done this many cells.
    Acquire {
        prn: Prn,
        done: u64,
        cells: u64,
    },
    /// The slot follows a satellite at a fixed Doppler shift, and has had this many dumps.
    Hold {
        prn: Prn,
        dumps: u64,
    },
    /// The slot tracks a satellite, and has had this many dumps. The carrier is shifted by `v`, in
    /// 1/65536 Hz, and the code's rate corrected by `w`, in 1/65536 chip a second.
    Track {
        prn: Prn,
        dumps: u64,
        v: i64,
        w: i64,
        phase: Phase,
    },
}

/// Why a command is refused.
#[non_exhaustive]
#[derive(Clone, Copy, Debug, PartialEq, Eq)]
pub enum Refusal {
    /// The command wants an idle slot, and this one isn't.
    Busy,
    /// The command wants a slot that isn't idle, and this one is.
    Idle,
    /// No client has that number, or the slot is none of its share.
    NoSuchSlot,
}

impl core::fmt::Display for Refusal {
    fn fmt(&self, f: &mut core::fmt::Formatter<'_>) -> core::fmt::Result {
        match self {
            Refusal::Busy => f.write_str("the slot isn't idle"),
            Refusal::Idle => f.write_str("the slot is idle"),
            Refusal::NoSuchSlot => f.write_str("the client has no such slot"),
        }
    }
}

impl core::error::Error for Refusal {}

impl Refusal {
    /// The number that is printed: 9 or 10, and 8 where there is no such slot, as for a script's
    /// line whose slot is out of its range.
    #[must_use]
    pub fn number(self) -> u8 {
        match self {
            Refusal::Busy => 9,
            Refusal::Idle => 10,
            Refusal::NoSuchSlot => 8,
        }
    }
}

/// What a slot answers to a command.
#[non_exhaustive]
#[derive(Clone, Copy, Debug, PartialEq, Eq)]
pub enum Answer {
    /// A command other than `state` was accepted.
    Accepted,
    /// The command was refused, and changed nothing.
    Refused(Refusal),
    /// What the slot shows.
    State(SlotState),
}
