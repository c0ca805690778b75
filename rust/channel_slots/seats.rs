// Made by tools/rust of crates/channel_slots/src/seats.rt: change that.
//! The seats of a bank: the slots of all clients, in the order of their clients and numbers.

use crate::kit::std::vec::Vec;
use crate::channel_slots::seat::Seat;
use crate::channel_slots::slot::{NEVER, SLOT_EVENTS, Slot};
use crate::channel_slots::timeline::Timeline;
use crate::acquisition::SearchRoom;
use crate::ca_codes::CodeBook;
use crate::channels::Window;
use crate::slot_protocol::MOST_SLOTS;
use crate::kit::std::alloc::{AllocError, Global};
use crate::kit::std::boxed::BoxedSlice;

/// The most clients.
pub const MOST_CLIENTS: usize = 8;

/// Idle slots for clients that have these shares of them, by client and then by slot.
pub fn idle_seats(alloc: Global, shares: &[u8]) -> Result<BoxedSlice<Seat>, AllocError> {
    assert!(
        shares.len() <= MOST_CLIENTS,
        "idle_seats requires shares.len() <= MOST_CLIENTS"
    );
    let mut seats = Vec::with_capacity(alloc, slots_in(shares))?;
    for index in 0..shares.len() {
        add_idle(alloc, &mut seats, index as u8 + 1, shares[index])?;
    }
    Ok(seats.into_boxed_slice())
}

/// The number of slots that clients with some shares have together.
pub fn slots_in(shares: &[u8]) -> usize {
    assert!(
        shares.len() <= MOST_CLIENTS,
        "slots_in requires shares.len() <= MOST_CLIENTS"
    );
    let mut slots = 0;
    for share in shares {
        slots += *share as usize;
    }
    slots
}

/// Adds the idle slots of a client, each with its room for a search.
fn add_idle(alloc: Global, seats: &mut Vec<Seat>, client: u8, share: u8) -> Result<(), AllocError> {
    for number in 0..share {
        let room = SearchRoom::new(alloc)?;
        seats.push(Seat {
            client,
            number,
            slot: Slot::new(room),
        })?;
    }
    Ok(())
}

/// Each slot in turn goes to its last event that comes within a window, and puts all of them by
/// time. None of the slots has one before sample `next_event` of the recording: where the window
/// ends before it, none goes. It answers a number of samples past the window's end, the least with
/// which one of them has its next event; that none has one before it is proved.
pub fn run_all(
    seats: &mut [Seat],
    window: &mut Window,
    book: &mut CodeBook,
    next_event: u64,
    timeline: &mut Timeline,
) -> u64 {
    if window.end() < next_event {
        return next_event;
    }
    let mut earliest = NEVER;
    for seat in seats.iter_mut() {
        seat.run(window, book, timeline);
        earliest = earliest.min(seat.slot.next_event());
    }
    earliest
}

/// Each slot takes the samples of a window that wait, none of which brings anything.
pub fn pass_all(seats: &mut [Seat], window: &mut Window, book: &mut CodeBook) {
    let end = window.end();
    for seat in seats.iter_mut() {
        seat.slot.take(end, window, book);
    }
}
