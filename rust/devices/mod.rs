// Made by tools/rust of crates/devices/src/lib.rt: change that.
//! What a program reads from and writes to. A `Source` gives bytes, and a `Sink` takes them.
//! Clauses see the bytes where they are known, and whether a call has failed.
//!
//! `Plain` makes either of a reader or a writer of std. What std answers goes through `report`,
//! which is proved to hand it on as it is, and to blame a device for an error alone; nothing else
//! changes what is known of a device. That each method of `Plain` makes its one call and gives
//! `report` its answer is read and not proved: no contract can name what a call of std answered.
//!
#![cfg_attr(feature = "internals", doc = "```")]
#![cfg_attr(not(feature = "internals"), doc = "```ignore")]
//! # fn main() -> Result<(), std::boxed::Box<dyn core::error::Error>> {
//! use seldomplough::kit::std::HostRuntime;
//! use seldomplough::internals::devices::{DeviceFault, Plain, Source};
//!
//! // The first bytes of standard input, and how many there are.
//! fn first_bytes(rt: HostRuntime, buffer: &mut [u8; 16]) -> Result<usize, DeviceFault> {
//!     Plain::new(rt.reader()).read(buffer)
//! }
//! # Ok(())
//! # }
//! ```

mod fault;
mod flags;
mod plain;
mod sink;
mod source;

pub use fault::DeviceFault;
pub use plain::Plain;
pub use sink::Sink;
pub use source::Source;
