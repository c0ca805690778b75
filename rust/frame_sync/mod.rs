// Made by tools/rust of crates/frame_sync/src/lib.rt: change that.
//! Subframes among the bits of GPS navigation data (IS-GPS-200, sections 20.3.2 and 20.3.3).
//!
//! [`FrameSync`] takes bits one at a time, damaged ones too, and gives each [`Subframe`] with the
//! last of its 300 bits: a word is there exactly where its parity holds, and a start is the least
//! header at or after the end of the subframe before. It keeps a window of 64 bits, and promises
//! what the definition says of the whole list of bits that were pushed.
//!
#![cfg_attr(feature = "internals", doc = "```")]
#![cfg_attr(not(feature = "internals"), doc = "```ignore")]
//! # fn main() -> Result<(), std::boxed::Box<dyn core::error::Error>> {
//! use seldomplough::internals::frame_sync::FrameSync;
//!
//! // A subframe is found among bits where its header and its parity are. Here is none.
//! let mut sync = FrameSync::new();
//! for bit in [true, false, false, false, true, false, true, true] {
//!     if let Some(found) = sync.push(bit) {
//!         let (id, time_of_week) = (found.subframe.id(), found.subframe.tow());
//!     }
//! }
//! # Ok(())
//! # }
//! ```

mod incoming;
mod last_bits;
mod subframe;
mod sync;

pub use subframe::{COUNT_LIMIT, HEADER_WORDS, LAST_ID, SUBFRAME_WORDS, Subframe};
pub use sync::{Found, FrameSync, MOST_BITS};
