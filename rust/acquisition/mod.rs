// Made by tools/rust of crates/acquisition/src/lib.rt: change that.
//! Acquisition: a search, cell by cell, for the Doppler shift and the half chip of the code at
//! which a satellite's signal is strongest.
//!
//! A `Plan` says which cells are searched and over how many milliseconds. A `Search` does them in
//! order, any number at a call, over the samples that a `SampleSource` holds; it can pause after
//! any cell. It stands for the greatest and the total of the powers of the cells that it has done.
//! Once all are done it names the first greatest cell. (IS-GPS-200 has the signal alone; the search
//! is this project's own.) Each power is proved to be that of the plain sums with the cell's
//! replica.
//!
//! # How a cell is summed up
//!
//! No replica is made. All cells of a bin share the sums of each period:
//!
//! ```text
//! samples     x0 x1 x2 x3 x4 x5 x6 ..    times the conjugate of the carrier (`Products`)
//! half chips  [--0--][---1---][-2-] ..   2,046 sums of the samples that lie there (`Fold`)
//! chip 0      [------0-------]           the sum of two half chips that follow one another
//! chip 1      .......[------1-----]      and so on: 2,046 of them, in a ring (`ChipRing`)
//! a cell      every second chip from its half chip on, each times the sign of the code
//! ```
//!
//! A sample lies at the half chip that a code has there which begins at phase 0 with the dwell.
//! A chip 0 of the code counts +1 and a chip 1 -1. So a cell's sum is that of all samples, less
//! twice the sum at the chips of 1. These are some 512 places of the ring (`Ones`), which move on
//! by one from each cell to the next. So 64 cells are summed up at once, in lanes that lie beside
//! each other in the ring. Where two chips of 1 follow one another, one look-up in a second ring
//! has both (`RingByTwos`). Where the sums are small enough, one number of 32 bits has the sum in
//! phase and that in quadrature (`PairLanes`); else each is added up by itself.
//!
//! `PeriodSums` has the rings of a period, `BinPowers` adds the powers of a bin's cells over the
//! periods of the dwell, and `Search` keeps the greatest of all bins and their total (`Tally`).
//!
#![cfg_attr(feature = "internals", doc = "```")]
#![cfg_attr(not(feature = "internals"), doc = "```ignore")]
//! # fn main() -> Result<(), std::boxed::Box<dyn core::error::Error>> {
//! use seldomplough::internals::acquisition::{Plan, Search, SearchRoom};
//! use seldomplough::internals::ca_codes::{CodeBook, Prn};
//! use seldomplough::internals::oscillators::Settings;
//! use seldomplough::internals::sample_planes::{Format, NumberedSamples, PackedSamples};
//!
//! // Satellite 5 within 4 kHz of 0, over 2 ms of samples from the first one on.
//! let settings = Settings::new(2_046_000, 511_500, Format::Real1)?;
//! let prn = Prn::new(5).ok_or("no satellite")?;
//! let plan = Plan::new(prn, 0, 16, 2, 25)?;
//! let room = SearchRoom::new(seldomplough::Global)?;
//! let mut search = Search::new(plan, &settings, 0, room);
//! // 4,092 samples, eight in a byte.
//! let bytes = [0x5a; 512];
//! let numbered = NumberedSamples::new(PackedSamples::new(settings.format(), &bytes), 0);
//! search.advance(plan.cells(), &numbered, &mut CodeBook::new());
//! if let Some(cell) = search.result().filter(|cell| cell.found) {
//!     // The signal is followed from the dwell's first sample on at this shift and half chip.
//!     let signal = plan.signal(&cell);
//! }
//! # Ok(())
//! # }
//! ```

mod bin_grid;
mod bin_powers;
mod bin_steps;
mod cell;
mod chip_ring;
mod dwell;
mod fold;
mod half_chip_table;
mod half_chip_walk;
mod ones;
mod pair_lanes;
mod pair_powers;
mod part_powers;
mod period_sums;
mod plan;
mod ring_by_twos;
mod ring_lanes;
mod ring_pairs;
mod search;
mod search_room;
mod signal;
mod sums;
mod tally;

pub use bin_grid::powers_of_bin;
pub use cell::Cell;
pub use plan::{
    BIN_CELLS, MOST_BINS, MOST_CELLS, MOST_CENTRE, MOST_DWELL, MOST_SIDE_BINS, MOST_THRESHOLD,
    Plan, PlanFault,
};
pub use search::Search;
pub use search_room::SearchRoom;
pub use signal::Signal;
pub use tally::MOST_POWER;
