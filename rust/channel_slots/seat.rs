// Made by tools/rust of crates/channel_slots/src/seat.rt: change that.
//! A seat of a bank: a slot, with whose it is.

use crate::channel_slots::slot::{SLOT_EVENTS, Slot};
use crate::channel_slots::timeline::Timeline;
use crate::ca_codes::CodeBook;
use crate::channels::Window;

/// A seat of a bank: a slot, with the number of its client and its own. Clients are numbered from
/// 1, and the slots of each from 0.
#[derive(Debug)]
pub struct Seat {
    pub client: u8,
    pub number: u8,
    pub slot: Slot,
}

impl Seat {
    /// Goes to the last event of the slot that comes within a window, and puts all of them by time.
    /// The samples after it wait.
    pub fn run(&mut self, window: &mut Window, book: &mut CodeBook, timeline: &mut Timeline) {
        let end = window.end();
        while self.slot.next_event() <= end {
            if let Some(news) = self.slot.take(end, window, book) {
                timeline.put_news(self.client, self.number, news, window.dump());
            }
        }
    }
}
