// Made by tools/rust of crates/sample_planes/src/lib.rt: change that.
//! Recorded samples of the GPS L1 signal: how they are packed into bytes, and up to 1,024 of them
//! unpacked.
//!
//! `Format` has the packings with their names, and copies single samples from byte to byte.
//! `PackedSamples` are a run of samples in their bytes, which can be split and, as `Planes`,
//! unpacked. A `SampleSource` holds samples by their numbers in a recording, as `NumberedSamples`
//! do. Each value is proved to be that of the sample's definition, at every place of every byte.
//! IS-GPS-200 leaves the recording of the signal to the receiver, so the packings are this
//! project's own.
//!
#![cfg_attr(feature = "internals", doc = "```")]
#![cfg_attr(not(feature = "internals"), doc = "```ignore")]
//! # fn main() -> Result<(), std::boxed::Box<dyn core::error::Error>> {
//! use seldomplough::internals::sample_planes::{Format, MAX_SAMPLES, PackedSamples};
//!
//! let samples = PackedSamples::new(Format::Real1, &[0x5a; 200]);
//! let (first, rest) = samples.split_at(samples.len().min(MAX_SAMPLES));
//! let planes = first.unpack();
//! let value = planes.value(0);
//! # Ok(())
//! # }
//! ```

mod format;
mod layout;
mod names;
mod numbered;
mod packed;
mod part;
mod parts;
mod planes;
mod source;

pub use format::Format;
pub use layout::NEAR_BYTES;
pub use numbered::NumberedSamples;
pub use packed::PackedSamples;
pub use part::MOST_SIZE;
pub use planes::{MAX_SAMPLES, MOST_TIME, Planes, unpack};
pub use source::SampleSource;
