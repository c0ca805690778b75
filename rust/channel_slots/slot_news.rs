// Made by tools/rust of crates/channel_slots/src/slot_news.rt: change that.
//! What comes with a sample of a slot.

use crate::acquisition::Cell;
use crate::ca_codes::Prn;

/// The most events that come with a dump: its sums, a change of lock, and a gap, a subframe, a page
/// and a set of almanacs.
pub const DUMP_EVENTS: usize = 6;

/// What comes with a sample of a slot, and at which time: the number of samples by then. A dump
/// with its news is large, so it stands beside this, in the window that the slot looked at.
#[derive(Clone, Copy, Debug, PartialEq, Eq)]
pub enum SlotNews {
    /// What an acquisition names. Where nothing was found the slot is idle, else it tracks the
    /// signal from here on.
    Acquired { time: u64, prn: Prn, cell: Cell },
    /// A dump, and whether its six sums are to be printed. Where the signal is lost with it the
    /// slot is idle.
    Dump { time: u64, is_shown: bool },
}

impl SlotNews {
    /// The number of samples of the recording with which it comes.
    pub fn time(&self) -> u64 {
        match self {
            SlotNews::Acquired { time, .. } | SlotNews::Dump { time, .. } => *time,
        }
    }
}
