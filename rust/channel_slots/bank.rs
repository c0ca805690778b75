// Made by tools/rust of crates/channel_slots/src/bank.rt: change that.
//! The slots of all clients over one stream of samples.

use crate::kit::std::boxes::Box;
use crate::channel_slots::feed_fault::FeedFault;
use crate::channel_slots::open_fault::OpenFault;
use crate::channel_slots::seat::Seat;
use crate::channel_slots::seats::{MOST_CLIENTS, idle_seats, pass_all, run_all, slots_in};
use crate::channel_slots::slot::NEVER;
use crate::channel_slots::timeline::Timeline;
use crate::kit::arrayvec::ArrayVec;
use crate::ca_codes::CodeBook;
use crate::channels::{MOST_WAIT, Window};
use crate::oscillators::Settings;
use crate::sample_planes::{Format, MAX_SAMPLES, MOST_TIME, PackedSamples};
use crate::slot_protocol::{Answer, Command, MOST_SLOTS, Refusal, SlotNo};
use crate::kit::std::alloc::{AllocError, Global};
use crate::kit::std::boxed::BoxedSlice;

/// How many samples back a search may look at the end of a run: from the due time of an acquisition
/// to its start, and over the run.
const ROOM: usize = MOST_WAIT as usize + MAX_SAMPLES;

/// The slots of one to eight clients over one stream of samples, one to eight for each client.
pub struct Bank {
    settings: Settings,
    /// How many slots each client has.
    shares: ArrayVec<u8, MOST_CLIENTS>,
    /// The codes are large for a stack.
    book: Box<CodeBook>,
    window: Window,
    seats: BoxedSlice<Seat>,
    /// With how many samples one of the slots has something to do next.
    next_event: u64,
}

impl Bank {
    /// Idle slots for one to `MOST_CLIENTS` clients, which are numbered from 1 and have shares of 1
    /// to `MOST_SLOTS` slots. It takes all memory that the bank needs.
    pub fn open(alloc: Global, settings: Settings, shares: &[u8]) -> Result<Bank, OpenFault> {
        let Ok(own) = ArrayVec::<u8, MOST_CLIENTS>::try_from(shares) else {
            return Err(OpenFault::Clients);
        };
        if own.is_empty() {
            return Err(OpenFault::Clients);
        }
        if !are_shares(shares) {
            return Err(OpenFault::Share);
        }
        let window = Window::new(alloc, settings.format(), ROOM)?;
        let seats = idle_seats(alloc, shares)?;
        let book = boxed_book(alloc)?;
        Ok(Bank {
            settings,
            shares: own,
            book,
            window,
            seats,
            next_event: NEVER,
        })
    }

    /// How the recording is packed.
    pub fn format(&self) -> Format {
        self.settings.format()
    }

    /// The number of samples that the bank has taken, at most `MOST_TIME`.
    pub fn time(&self) -> u64 {
        self.window.end()
    }

    /// How many cells the search of a client's slot has done: `None` where the slot isn't
    /// acquiring, or no client has that number.
    pub fn cells_done(&self, client: u8, slot: SlotNo) -> Option<u64> {
        let at = self.seat_index(client, slot)?;
        self.seats[at].slot.cells_done()
    }

    /// The index of a client's slot among the seats, or `None` where it has no such slot.
    fn seat_index(&self, client: u8, slot: SlotNo) -> Option<usize> {
        let before = (client as usize).checked_sub(1)?;
        if *self.shares.get(before)? <= slot.get() {
            return None;
        }
        Some(slots_in(&self.shares[..before]) + slot.get() as usize)
    }

    /// Takes a run of samples. The timeline has the slots' events over it from then on, and nothing
    /// of before: by time, then by client, then by slot.
    pub fn feed(&mut self, run: &PackedSamples, timeline: &mut Timeline) {
        assert!(
            run.format() == self.format(),
            "Bank::feed requires a run in the format of its settings"
        );
        assert!(
            run.len() <= MAX_SAMPLES,
            "Bank::feed requires run.len() <= MAX_SAMPLES"
        );
        assert!(
            self.time() <= MOST_TIME - run.len() as u64,
            "Bank::feed requires at most MOST_TIME samples in all"
        );
        timeline.clear();
        self.make_room(run.len());
        self.window.take(run);
        self.next_event = run_all(
            &mut self.seats,
            &mut self.window,
            self.book.as_mut(),
            self.next_event,
            timeline,
        );
    }

    /// Makes room for so many more open samples. Where they don't fit beside those that are open,
    /// all slots take these: none has an event with them.
    fn make_room(&mut self, more: usize) {
        if !self.window.has_room(more) {
            pass_all(&mut self.seats, &mut self.window, self.book.as_mut());
            self.window.close();
        }
    }

    /// Takes a run of samples as `feed` does, if the bank can.
    ///
    /// # Errors
    ///
    /// Why the run isn't taken. Neither the bank nor the timeline has changed then.
    pub fn try_feed(
        &mut self,
        run: &PackedSamples,
        timeline: &mut Timeline,
    ) -> Result<(), FeedFault> {
        if run.format() != self.format() {
            return Err(FeedFault::Packing);
        }
        if run.len() > MAX_SAMPLES {
            return Err(FeedFault::TooLong);
        }
        if run.len() as u64 > MOST_TIME - self.time() {
            return Err(FeedFault::TooMany);
        }
        self.feed(run, timeline);
        Ok(())
    }

    /// Does what a client asks of one of its slots, and answers it: a refused command changes
    /// nothing. One for a slot that the client doesn't have is refused.
    pub fn command(&mut self, client: u8, command: Command) -> Answer {
        let Some(at) = self.seat_index(client, command.slot()) else {
            return Answer::Refused(Refusal::NoSuchSlot);
        };
        let time = self.window.end();
        let slot = &mut self.seats[at].slot;
        let answer = slot.command(&self.settings, time, command);
        self.next_event = self.next_event.min(slot.next_event());
        answer
    }
}

/// Whether each of some numbers is a share of the slots: 1 to `MOST_SLOTS`.
fn are_shares(shares: &[u8]) -> bool {
    shares.iter().all(|n| 1 <= *n && *n <= MOST_SLOTS)
}

/// A book that has made no code yet, on the heap. It stands apart, so that the book is on the stack
/// for no longer than it takes to move it.
#[cold]
#[inline(never)]
fn boxed_book(alloc: Global) -> Result<Box<CodeBook>, AllocError> {
    Ok(Box::new(alloc, CodeBook::new())?)
}
