// Made by tools/rust of crates/made_signals/src/lib.rt: change that.
//! Signals for tests: the signal of one satellite, made sample by sample from its formula. Only
//! tests use this crate.
//!
//! It is written from the formulas alone and calls no other crate, so that a test compares two
//! things that were written apart. It is proved to be safe and to end, that values are at most 3 in
//! size and that `fill` stays in its buffer, and no more: that the signals are those of their
//! formulas is only tested, in the crate `signal_tests`, for which some of its parts are public.
//!
#![cfg_attr(feature = "internals", doc = "```")]
#![cfg_attr(not(feature = "internals"), doc = "```ignore")]
//! # fn main() -> Result<(), std::boxed::Box<dyn core::error::Error>> {
//! use seldomplough::internals::made_signals::{MadeSignal, SampleStream};
//!
//! let mut stream = SampleStream::new(MadeSignal::with_tail(&[]), 10_000);
//! while let Some(value) = stream.next_value() {
//!     // The next sample: -3, -1, 1 or 3.
//! }
//! # Ok(())
//! # }
//! ```

pub mod chip_signs;
pub mod noise;
mod recording;
mod signal;
mod steps;
mod stream;

pub use recording::{RECORDING, code_file, long_code_file};
pub use signal::MadeSignal;
pub use stream::SampleStream;
