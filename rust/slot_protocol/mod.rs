// Made by tools/rust of crates/slot_protocol/src/lib.rt: change that.
//! What a client asks of a slot, what the slot answers, and the events that it emits. These are the
//! types between those who read scripts, those who keep slots and those who print lines. Each is
//! proved to be what the definitions call so: a command's slot and request, an answer with the
//! number of a refusal, and an event with its client, its slot and its time.
//!
#![cfg_attr(feature = "internals", doc = "```")]
#![cfg_attr(not(feature = "internals"), doc = "```ignore")]
//! # fn main() -> Result<(), std::boxed::Box<dyn core::error::Error>> {
//! use seldomplough::internals::slot_protocol::{Command, SlotNo};
//!
//! let slot = SlotNo::new(3).ok_or("no slot")?;
//! assert!(Command::Stop { slot }.slot().get() == 3);
//! assert!(SlotNo::new(8).is_none());
//! # Ok(())
//! # }
//! ```

mod answer;
mod command;
mod event;

pub use answer::{Answer, Phase, Refusal, SlotState};
pub use command::{Command, MOST_SLOTS, SlotNo};
pub use event::{Event, SlotEvent};
