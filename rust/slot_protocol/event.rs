// Made by tools/rust of crates/slot_protocol/src/event.rt: change that.
//! The events that slots emit.

use crate::acquisition::Cell;
use crate::ca_codes::Prn;
use crate::data_sets::{AlmanacSet, Report};
use crate::frame_sync::Subframe;
use crate::lane_correlator::Counts;

/// An event that a slot emits with a sample.
#[non_exhaustive]
#[derive(Clone, Copy, Debug, PartialEq, Eq)]
pub enum Event {
    /// What an acquisition names, for a satellite.
    Acquired { prn: Prn, cell: Cell },
    /// A dump that was asked for: its six sums.
    Count(Counts),
    /// With this dump the loops are locked.
    Lock,
    /// From this dump on the loops aren't locked.
    Unlock,
    /// The signal is lost, and the slot is idle.
    Lost,
    /// The edge of the data bits was found.
    Bits,
    /// The number of bits between the end of the subframe before and the start of the next one.
    Gap(u64),
    /// A subframe is whole.
    Sub(Subframe),
    /// A page, or the clock and ephemeris that it completes.
    Page(Report),
    /// The almanacs of all satellites.
    Almanacs(AlmanacSet),
}

// The rooms of a list that no event was put into.
impl Default for Event {
    fn default() -> Self {
        Event::Lock
    }
}

/// An event, with its client, its slot and its time.
#[derive(Clone, Copy, Debug, Default, PartialEq, Eq)]
pub struct SlotEvent {
    /// The client's number, from 1 on.
    pub client: u8,
    /// The client's slot, from 0 on.
    pub slot: u8,
    /// The time in samples: the event rests on the samples before it.
    pub time: u64,
    /// What the slot emits.
    pub event: Event,
}
