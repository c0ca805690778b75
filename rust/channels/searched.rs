// Made by tools/rust of crates/channels/src/searched.rt: change that.
//! A satellite that is searched for.

use crate::channels::followed::Followed;
use crate::acquisition::{Cell, MOST_CELLS, MOST_DWELL, Plan, Search, SearchRoom};
use crate::ca_codes::{CodeBook, Prn};
use crate::oscillators::{MOST_PER_MS, Settings};
use crate::sample_planes::{MOST_TIME, SampleSource};

/// The most samples from the first of a search to the time of its answer, whatever the settings.
pub const MOST_WAIT: u64 = MOST_DWELL as u64 * MOST_PER_MS as u64 + 4 * MOST_CELLS;

/// A satellite that is searched for from a sample on. One more cell of its plan is done with every
/// four samples after the dwell, so that its answer is due at a sample that depends on the plan
/// alone. It stands for its acquisition and the samples so far.
#[derive(Debug)]
pub struct Searched {
    settings: Settings,
    search: Search,
}

impl Searched {
    /// A search that begins with sample `start`, the next one; `start` is at most `MOST_TIME`. It
    /// works in a room until `into_room` gives that back.
    pub fn start(settings: &Settings, plan: Plan, start: u64, room: SearchRoom) -> Searched {
        assert!(
            start <= MOST_TIME,
            "Searched::start requires start <= MOST_TIME"
        );
        Searched {
            settings: *settings,
            search: Search::new(plan, settings, start, room),
        }
    }

    /// Ends the search, and gives back the room that it worked in.
    pub fn into_room(self) -> SearchRoom {
        self.search.into_room()
    }

    /// The satellite that is searched for.
    pub fn prn(&self) -> Prn {
        self.search.plan().prn()
    }

    /// The number of cells that the search has done.
    pub fn done(&self) -> u64 {
        self.search.done()
    }

    /// The number of cells of the search's plan.
    pub fn cells(&self) -> u64 {
        self.search.plan().cells()
    }

    /// The time at which the answer is due.
    pub fn due(&self) -> u64 {
        self.search.due()
    }

    /// With how many samples of the recording the next cell is to be done: it needs none before.
    /// Where all are done it is the time of the answer.
    pub fn next_cell(&self) -> u64 {
        self.due() - 4 * self.cells().saturating_sub(self.search.done() + 1)
    }

    /// Does the cells of the samples up to number `to`, over a source that holds them from the
    /// search's first on. It answers the cell that the acquisition names if that is due by then.
    /// The book is any book of codes. It stays a call, since it has rooms for many samples.
    #[inline(never)]
    pub fn take<S: SampleSource>(
        &mut self,
        to: u64,
        source: &S,
        book: &mut CodeBook,
    ) -> Option<Cell> {
        if to < self.next_cell() {
            return None;
        }
        let left = self.due().saturating_sub(to);
        let more = self.cells() - left.div_ceil(4) - self.search.done();
        self.search.advance(more, source, book);
        self.search.result()
    }

    /// The signal of a cell that was found, tracked from the time on at which the answer was due.
    /// `None` where the cell isn't one that was found.
    pub fn follow(&self, cell: &Cell) -> Option<Followed> {
        if !cell.found {
            return None;
        }
        let signal = self.search.plan().signal(cell)?;
        let due = self.search.due();
        let ago = due - self.search.start();
        Some(Followed::track_after(&self.settings, signal, due, ago))
    }
}
