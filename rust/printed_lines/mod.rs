// Made by tools/rust of crates/printed_lines/src/lib.rt: change that.
//! Printed lines: what a slot emits, what it answers, the refusal of a script's line and a client's
//! last line, each with its end, are proved to be the texts of their definitions. None has more
//! than LINE_BYTES bytes.
//!
#![cfg_attr(feature = "internals", doc = "```")]
#![cfg_attr(not(feature = "internals"), doc = "```ignore")]
//! # fn main() -> Result<(), std::boxed::Box<dyn core::error::Error>> {
//! use seldomplough::internals::slot_protocol::SlotEvent;
//! use seldomplough::internals::printed_lines::{end_line, event_line};
//!
//! // How long the lines of a client are that end at a time.
//! fn bytes_of(events: &[SlotEvent], end: u64) -> usize {
//!     let before = events.iter().map(|event| event_line(event).len());
//!     before.sum::<usize>() + end_line(1, end).len()
//! }
//! # Ok(())
//! # }
//! ```

mod almanacs;
mod answers;
mod events;
mod hex;
mod lines;
mod pages;
mod subframe_words;
mod words;

pub use lines::{end_line, event_line};
pub use words::{LINE_BYTES, Line};
