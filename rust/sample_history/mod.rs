// Made by tools/rust of crates/sample_history/src/lib.rt: change that.
//! The last samples of a stream, packed: what the searches of a receiver read again.
//!
//! A `SampleHistory` takes a stream's samples run by run, and keeps the last of them in one ring of
//! bytes, whose memory it takes once, when it is opened. The bytes are aligned to the stream,
//! wherever in a byte a run begins. It is a `SampleSource`: each sample that it holds is proved to
//! be the sample of the stream with that number. That `open` alone takes memory is seen in the
//! code, and not proved.
//!
#![cfg_attr(feature = "internals", doc = "```")]
#![cfg_attr(not(feature = "internals"), doc = "```ignore")]
//! # fn main() -> Result<(), std::boxed::Box<dyn core::error::Error>> {
//! use seldomplough::internals::sample_history::SampleHistory;
//! use seldomplough::internals::sample_planes::{Format, PackedSamples, SampleSource};
//!
//! let mut history = SampleHistory::open(seldomplough::Global, Format::Real2, 40_000)?;
//! history.take(&PackedSamples::new(Format::Real2, &[0x5a; 100]));
//! let planes = history.planes(history.end() - 10, 10);
//! # Ok(())
//! # }
//! ```

mod history;
mod ring_bytes;
mod shifted_bytes;

pub use history::SampleHistory;
