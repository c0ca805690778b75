// Made by tools/rust of crates/receiver/src/lib.rt: change that.
//! The run of a receiver bank: the scripts of one to eight clients over the samples that a reader
//! gives, and the lines that a writer takes. `run` is proved to write what is defined, for every
//! client as if it were alone, whatever the reads cut, where the bytes of both devices are known.
//! `run_shares` gives each client a share of the slots, and `run` gives each four. No entry of a
//! script asks a slot past its client's share, so the bank can answer each.
//!
#![cfg_attr(feature = "internals", doc = "```")]
#![cfg_attr(not(feature = "internals"), doc = "```ignore")]
//! # fn main() -> Result<(), std::boxed::Box<dyn core::error::Error>> {
//! use seldomplough::kit::std::HostRuntime;
//! use seldomplough::internals::oscillators::Settings;
//! use seldomplough::internals::receiver::{Plain, RunFault, run};
//! use seldomplough::kit::std::io;
//!
//! // From standard input to standard output: the first five sums of satellite 5.
//! fn first_sums(rt: HostRuntime, settings: Settings) -> Result<u64, RunFault> {
//!     let mut reader = Plain::new(rt.reader());
//!     let mut writer = Plain::new(io::writer(&rt));
//!     let script: &[u8] = b"0 hold 0 5 1250 700\n0 counts 0 5\n";
//!     run(rt.alloc(), settings, &[script], &mut reader, &mut writer)
//! }
//! # Ok(())
//! # }
//! ```

mod due;
mod faults;
mod output;
mod queue;
mod queues;
mod reading;
mod running;
mod session;
mod writing;

pub use crate::devices::{DeviceFault, Plain, Sink, Source};
pub use faults::RunFault;
pub use running::{run, run_shares, run_to};
