// Made by tools/rust of crates/tracking_loops/src/lib.rt: change that.
//! The loops that steer a tracking channel of a GPS L1 C/A receiver by its dumps, and the news of
//! whether it is locked to its signal. All of it is this project's own, in exact whole numbers,
//! with quotients that round toward minus infinity. The crate promises that the channel's shift,
//! its count of dumps and its news are what the definition says of the list of all dumps taken.
//!
#![cfg_attr(feature = "internals", doc = "```")]
#![cfg_attr(not(feature = "internals"), doc = "```ignore")]
//! # fn main() -> Result<(), std::boxed::Box<dyn core::error::Error>> {
//! use seldomplough::internals::lane_correlator::Counts;
//! use seldomplough::internals::tracking_loops::{Loops, News};
//!
//! // Begins with a shift of 1,250 Hz, in 1/65536 Hz.
//! let mut loops = Loops::start(1_250 * 65_536);
//! let counts = Counts { ie: 450, qe: 0, ip: 900, qp: 10, il: 440, ql: 0 };
//! for _ in 0..1_000 {
//!     if loops.take(counts) == News::Lost {
//!         break;
//!     }
//!     let (shift, code_rate) = (loops.v(), loops.w());
//! }
//! # Ok(())
//! # }
//! ```

mod discriminators;
mod limits;
mod lock;
mod loops;
mod news;
mod steering;
mod window;

pub use limits::{MOST_ERROR, MOST_STEERED_DUMPS, MOST_SUM};
pub use loops::Loops;
pub use news::News;
