// Made by tools/rust of crates/bit_sync/src/lib.rt: change that.
//! The edge of the data bits of GPS L1 C/A among a channel's prompt sums, and the bits after it. A
//! bit is 20 code periods, since data come at 50 bits a second (IS-GPS-200, sections 3.2.2 and
//! 20.3.2). The crate promises that what it reports with each sum is what the definition of edge
//! and bits says of all the sums so far, however many there are.
//!
#![cfg_attr(feature = "internals", doc = "```")]
#![cfg_attr(not(feature = "internals"), doc = "```ignore")]
//! # fn main() -> Result<(), std::boxed::Box<dyn core::error::Error>> {
//! use seldomplough::internals::bit_sync::{BitNews, BitSync};
//!
//! // Twenty sums of each bit: 0 and 1 in turn.
//! let mut sync = BitSync::new();
//! let mut ones = 0;
//! for millisecond in 0..2_000 {
//!     let sum = if millisecond / 20 % 2 == 0 { 900 } else { -900 };
//!     if let BitNews::Bit(bit) = sync.push(sum) {
//!         ones += u32::from(bit);
//!     }
//! }
//! # Ok(())
//! # }
//! ```

mod bit_sum;
mod bit_sync;
mod edge_search;

pub use bit_sum::MOST_PUSH;
pub use bit_sync::{BitNews, BitSync};
