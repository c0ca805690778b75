// Made by tools/rust of crates/bit_planes/src/lib.rt: change that.
//! Planes of bits, one bit for each of up to 1,024 samples, and lanes of bytes, one byte for each
//! of 64 samples.
//!
//! A `Plane` stands for a bit at each place. `pick_from_four` looks up 64 bytes of a table, and
//! `marked_bytes` puts a number into the lanes whose bit is 1. `bit_of_each` gives bits of the
//! lanes as a word of a plane. Lane 0 stands for the last of these places, so that a bitmask of
//! lanes has the first place in its top bit.
//!
#![cfg_attr(feature = "internals", doc = "```")]
#![cfg_attr(not(feature = "internals"), doc = "```ignore")]
//! # fn main() -> Result<(), std::boxed::Box<dyn core::error::Error>> {
//! use seldomplough::internals::bit_planes::{Plane, TOP_BIT, bit_of_each};
//! use seldomplough::kit::lanes::u8x64;
//!
//! let mut plane = Plane::new();
//! // The top bits of 64 bytes are the bits at places 0 to 63.
//! plane.set_word(0, bit_of_each(u8x64::splat(0x80), TOP_BIT));
//! assert_eq!(plane.bit(0), 1);
//! # Ok(())
//! # }
//! ```

mod lanes;
mod plane;
mod spread;
mod word_lanes;

pub use lanes::{LANES, TOP_BIT};
pub use plane::{PLACES, Plane, WORD_PLACES, WORDS};
pub use spread::marked_bytes;
pub use word_lanes::{bit_of_each, pick_from_four};
