// Made by tools/rust of crates/acquisition/src/search.rt: change that.
//! A search through the cells of a plan.

use crate::acquisition::bin_steps::BinSteps;
use crate::acquisition::cell::Cell;
use crate::acquisition::dwell::Dwell;
use crate::acquisition::ones::Ones;
use crate::acquisition::plan::{BIN_CELLS, Plan};
use crate::acquisition::search_room::SearchRoom;
use crate::acquisition::tally::PowerTally;
use crate::ca_codes::CodeBook;
use crate::oscillators::{HalfChip, Settings};
use crate::sample_planes::{MOST_TIME, SampleSource};

/// The cells of a bin.
const HALF_CHIPS: u64 = BIN_CELLS as u64;

/// A search through the cells of a plan over one dwell: by bins, the lowest shift first, and in
/// each bin by half chips. It stands for the cells that it has done, and can pause after any cell.
///
/// A cell of a bin is so much work as its dwell has periods. A bin's work is done by period, so
/// that each period's samples are summed up once.
#[derive(Debug)]
pub struct Search {
    plan: Plan,
    dwell: Dwell,
    steps: BinSteps,
    /// What is kept of the powers of the bins that are done.
    tally: PowerTally,
    /// How many cells are done.
    done: u64,
    /// The room for the powers of the bin that is worked on.
    room: SearchRoom,
    /// The chips of the plan's satellite that are 1. They are made for the first cell.
    ones: Option<Ones>,
}

impl Search {
    /// A search that has done no cell, for a dwell that begins with sample `start`, at most
    /// `MOST_TIME`. It works in a room until `into_room` gives that back.
    ///
    /// # Panics
    ///
    /// Plain Rust panics where the start is later than `MOST_TIME`.
    #[must_use]
    pub fn new(plan: Plan, settings: &Settings, start: u64, mut room: SearchRoom) -> Search {
        assert!(
            start <= MOST_TIME,
            "Search::new requires start <= MOST_TIME"
        );
        room.begin();
        Search {
            plan,
            dwell: Dwell {
                start,
                periods: plan.dwell(),
                per_period: settings.per_ms(),
            },
            steps: BinSteps::new(&plan, settings),
            tally: PowerTally::new(),
            done: 0,
            room,
            ones: None,
        }
    }

    /// Ends the search, and gives back the room that it worked in.
    #[must_use]
    pub fn into_room(self) -> SearchRoom {
        self.room
    }

    /// The number of its dwell's first sample.
    #[must_use]
    pub fn start(&self) -> u64 {
        self.dwell.start
    }

    /// The plan of the search.
    #[must_use]
    pub fn plan(&self) -> Plan {
        self.plan
    }

    /// The time, in samples, at which the search's answer is due: four samples for each cell after
    /// the dwell's end.
    #[must_use]
    pub fn due(&self) -> u64 {
        self.dwell.end() + 4 * self.plan.cells()
    }

    /// The number of cells that the search has done.
    #[must_use]
    pub fn done(&self) -> u64 {
        self.done
    }

    /// Does `cells` more cells, or those that are left if these are fewer, over a source that holds
    /// the dwell's samples. The book is any book of codes.
    ///
    /// # Panics
    ///
    /// Plain Rust panics where the source does not hold the whole dwell.
    pub fn advance<S: SampleSource>(&mut self, cells: u64, source: &S, book: &mut CodeBook) {
        assert!(
            source.first() <= self.dwell.start && self.dwell.end() <= source.end(),
            "Search::advance requires a source that holds the dwell"
        );
        let left = self.plan.cells() - self.done;
        let end = self.done + cells.min(left);
        if self.ones.is_none() {
            self.ones = Some(Ones::new(self.plan.prn(), book));
        }
        while self.done < end {
            self.take_cells(end, source);
        }
    }

    /// Does the next cells, as far as they are in one bin and before cell `end`: at least one.
    fn take_cells<S: SampleSource>(&mut self, end: u64, source: &S) {
        let Some(ones) = &self.ones else {
            return;
        };
        let first = self.done % HALF_CHIPS;
        let count = (HALF_CHIPS - first).min(end - self.done);
        let work = (first + count) as usize * self.dwell.periods as usize;
        let steps = self.steps.bin((self.done / HALF_CHIPS) as usize);
        let powers = &mut self.room.powers[0];
        powers.advance(work, &self.dwell, steps, ones, source);
        if first + count == HALF_CHIPS {
            self.tally.take_bin(powers);
            powers.clear();
        }
        self.done += count;
    }

    /// The cell that the search names, once it has done all: the first one that no cell exceeds. It
    /// is found where its power is the threshold times the mean power, or more.
    #[must_use]
    pub fn result(&self) -> Option<Cell> {
        if self.done < self.plan.cells() {
            return None;
        }
        Some(Cell {
            bin: self.plan.bin((self.tally.best / HALF_CHIPS) as usize),
            half: half_chip_of(self.tally.best),
            power: self.tally.greatest,
            found: self.is_found(),
        })
    }

    /// Whether ten times the greatest power is the threshold times the mean of all cells, or more.
    /// The products may leave 64 bits.
    fn is_found(&self) -> bool {
        let greatest = 10 * u128::from(self.tally.greatest) * u128::from(self.plan.cells());
        greatest >= u128::from(self.plan.threshold()) * u128::from(self.tally.total)
    }
}

/// The half chip of a cell.
fn half_chip_of(cell: u64) -> HalfChip {
    HalfChip::new((cell % HALF_CHIPS) as u16).unwrap()
}
