// Made by tools/rust of crates/channel_slots/src/slot.rt: change that.
//! One slot: what it emits with the samples, and what it answers to its client.

use crate::channel_slots::slot_news::SlotNews;
use crate::channel_slots::stage::Stage;
use crate::acquisition::{Cell, Plan, SearchRoom, Signal};
use crate::ca_codes::CodeBook;
use crate::channels::{Followed, Searched, Window};
use crate::oscillators::Settings;
use crate::sample_planes::MOST_TIME;
use crate::slot_protocol::{Answer, Command, Phase, Refusal, SlotState};
use crate::kit::std::mem;
use crate::tracking_loops::News;

/// The most events that a slot emits over a run of samples: the answer of an acquisition, and those
/// of a dump.
pub const SLOT_EVENTS: usize = 7;

/// The number of a sample that doesn't come.
pub const NEVER: u64 = u64::MAX;

/// A slot: how many dumps are still to be printed, which only commands and dumps change, and what
/// it follows. Its room for a search is lent to each of its searches, and comes back where that
/// ends.
#[derive(Debug)]
pub struct Slot {
    unprinted: u32,
    stage: Stage,
    room: Option<SearchRoom>,
}

impl Slot {
    /// A slot that was never asked for anything, with the room for its searches.
    pub fn new(room: SearchRoom) -> Slot {
        Slot {
            unprinted: 0,
            stage: Stage::Idle,
            room: Some(room),
        }
    }

    /// With how many samples of the recording the slot has something to do next: those before may
    /// wait, since nothing is emitted with them.
    pub fn next_event(&self) -> u64 {
        match &self.stage {
            Stage::Idle => NEVER,
            Stage::Searching(searched) => searched.next_cell(),
            Stage::Following(followed) => followed.next_dump(),
        }
    }

    /// Goes to sample number `to` of a window, or to the slot's next event if that comes before. It
    /// answers what came: where that is a dump it is the window's. The book is any book of codes.
    pub fn take(&mut self, to: u64, window: &mut Window, book: &mut CodeBook) -> Option<SlotNews> {
        match &mut self.stage {
            Stage::Idle => None,
            Stage::Searching(searched) => {
                let cell = searched.take(to, window.history(), book)?;
                let (time, prn) = (searched.due(), searched.prn());
                self.settle(&cell);
                Some(SlotNews::Acquired { time, prn, cell })
            }
            Stage::Following(followed) => {
                let time = followed.next_dump();
                if !followed.take(to, window, book) {
                    return None;
                }
                let is_shown = self.note_dump(window.dump().lock);
                Some(SlotNews::Dump { time, is_shown })
            }
        }
    }

    /// Where the slot's search has named a cell, the slot follows the signal from here on that was
    /// found, and nothing where none was. It comes rarely. It isn't inlined, so that `take` has
    /// fewer instructions where a slot holds.
    #[cold]
    #[inline(never)]
    fn settle(&mut self, cell: &Cell) {
        let Stage::Searching(searched) = &self.stage else {
            return;
        };
        let found = searched.follow(cell);
        self.rest();
        if let Some(followed) = found {
            self.stage = Stage::Following(followed);
        }
    }

    /// Follows nothing from here on. Where the slot searched, it has its room again. It isn't
    /// inlined, for the reason of `settle`.
    #[cold]
    #[inline(never)]
    fn rest(&mut self) {
        let was = mem::replace(&mut self.stage, Stage::Idle);
        if let Stage::Searching(searched) = was {
            self.room = Some(searched.into_room());
        }
    }

    /// Whether a dump of the slot's satellite is to be printed: while dumps are, it is one of them.
    /// Where the signal is lost with it the slot is idle from here on.
    fn note_dump(&mut self, lock: News) -> bool {
        let is_shown = self.unprinted > 0;
        self.unprinted = self.unprinted.saturating_sub(1);
        if matches!(lock, News::Lost) {
            self.rest();
        }
        is_shown
    }

    /// The number of cells that the search has done, if the slot searches.
    pub fn cells_done(&self) -> Option<u64> {
        match &self.stage {
            Stage::Searching(searched) => Some(searched.done()),
            Stage::Idle | Stage::Following(_) => None,
        }
    }

    /// Whether the slot follows nothing.
    fn is_idle(&self) -> bool {
        matches!(self.stage, Stage::Idle)
    }

    /// What the slot shows.
    fn state(&self) -> SlotState {
        match &self.stage {
            Stage::Idle => SlotState::Idle,
            Stage::Searching(searched) => SlotState::Acquire {
                prn: searched.prn(),
                done: searched.done(),
                cells: searched.cells(),
            },
            Stage::Following(followed) => state_of(followed),
        }
    }

    /// Makes the slot follow a stage that is no search, and print no dump, if it is idle.
    #[inline(always)]
    fn start(&mut self, stage: Stage) -> Answer {
        if !self.is_idle() {
            return Answer::Refused(Refusal::Busy);
        }
        self.unprinted = 0;
        self.stage = stage;
        Answer::Accepted
    }

    /// Makes the slot hold a satellite from sample `time` on, if it is idle. A start isn't inlined,
    /// here and below: what is followed is large, and other commands need no room for it.
    #[inline(never)]
    fn hold(&mut self, settings: &Settings, time: u64, signal: Signal) -> Answer {
        self.start(Stage::Following(Followed::hold(settings, signal, time)))
    }

    /// Makes the slot track a satellite from sample `time` on, if it is idle.
    #[inline(never)]
    fn track(&mut self, settings: &Settings, time: u64, signal: Signal) -> Answer {
        self.start(Stage::Following(Followed::track(settings, signal, time)))
    }

    /// Makes the slot search for a satellite from sample `time` on, and print no dump, if it is
    /// idle. Its room goes to the search.
    #[inline(never)]
    fn acquire(&mut self, settings: &Settings, plan: Plan, time: u64) -> Answer {
        if self.is_idle() {
            let room = self.room.take().unwrap();
            self.unprinted = 0;
            self.stage = Stage::Searching(Searched::start(settings, plan, time, room));
            Answer::Accepted
        } else {
            Answer::Refused(Refusal::Busy)
        }
    }

    /// Does what a client asks of this slot, and answers it: a refused command changes nothing.
    /// The next sample is number `time`, at most `MOST_TIME`.
    pub fn command(&mut self, settings: &Settings, time: u64, command: Command) -> Answer {
        assert!(
            time <= MOST_TIME,
            "Slot::command requires time <= MOST_TIME"
        );
        match command {
            Command::Acquire { slot: _, plan } => self.acquire(settings, plan, time),
            Command::Hold { slot: _, signal } => self.hold(settings, time, signal),
            Command::Track { slot: _, signal } => self.track(settings, time, signal),
            Command::State { .. } => Answer::State(self.state()),
            Command::Counts { slot: _, n } => {
                if self.is_idle() {
                    return Answer::Refused(Refusal::Idle);
                }
                self.unprinted = n;
                Answer::Accepted
            }
            Command::Stop { .. } => {
                if self.is_idle() {
                    return Answer::Refused(Refusal::Idle);
                }
                self.unprinted = 0;
                self.rest();
                Answer::Accepted
            }
        }
    }
}

/// What a slot shows of a satellite that it follows.
fn state_of(followed: &Followed) -> SlotState {
    let (prn, dumps) = (followed.prn(), followed.dumps());
    match followed.tracking() {
        None => SlotState::Hold { prn, dumps },
        Some(tracking) => SlotState::Track {
            prn,
            dumps,
            v: tracking.v(),
            w: tracking.w(),
            phase: Phase::of(tracking.is_locked(), tracking.has_edge()),
        },
    }
}
