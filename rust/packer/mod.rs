// Made by tools/rust of crates/packer/src/lib.rt: change that.
//! The program `pack` with its command line: recordings as people have them in, the packings that
//! the receiver reads out. `carry_out` takes the words of the command line, has the option parser
//! read them, and packs or measures a recording from a reader to a writer. It reports on standard
//! error what went wrong, and gives the status. The crate `recordings` has what is written. This
//! one has the options and the texts. The program is proved to end without words,
//! without options, or with what was done with the options that were found: they are refused, the
//! recording is measured, there is no memory, or the stretch that is asked for is packed as asked.
//! Which words give which options is only tested.
//!
#![cfg_attr(feature = "internals", doc = "```")]
#![cfg_attr(not(feature = "internals"), doc = "```ignore")]
//! # fn main() -> Result<(), std::boxed::Box<dyn core::error::Error>> {
//! use seldomplough::kit::std::HostRuntime;
//! use seldomplough::internals::packer::{Plain, carry_out};
//! use seldomplough::kit::std::io;
//! use seldomplough::kit::std::process::ExitCode;
//!
//! fn program(rt: HostRuntime) -> ExitCode {
//!     let (mut reader, mut writer) = (Plain::new(rt.reader()), Plain::new(io::writer(&rt)));
//!     carry_out(&rt, &mut reader, &mut writer)
//! }
//! # Ok(())
//! # }
//! ```

mod command;
mod decimals;
mod failure;
mod floats;
mod formats;
mod halves;
mod measuring;
mod options;
mod program;
mod running;

pub use crate::devices::{DeviceFault, Plain, Sink, Source};
pub use failure::{Failure, status};
pub use program::carry_out;
pub use running::run;
