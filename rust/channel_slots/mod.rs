// Made by tools/rust of crates/channel_slots/src/lib.rt: change that.
//! The slots of a receiver bank. Each is idle, searches for a satellite, holds one at a fixed
//! Doppler shift, or tracks one and reads its message. All searches look at one history of samples.
//! What the slots answer to commands, and the events that they emit, are proved to be those of the
//! definition for each slot and its own commands alone, however the samples are cut into runs. A
//! found signal is tracked from its due time on, over the rest of the same run. A slot where
//! nothing was found, or whose signal is lost, is idle from then on. That `open` alone takes memory
//! is seen in the code, and not proved.
//!
#![cfg_attr(feature = "internals", doc = "```")]
#![cfg_attr(not(feature = "internals"), doc = "```ignore")]
//! # fn main() -> Result<(), std::boxed::Box<dyn core::error::Error>> {
//! use seldomplough::internals::acquisition::Signal;
//! use seldomplough::internals::ca_codes::Prn;
//! use seldomplough::internals::channel_slots::{Bank, Command, Event, SlotNo, Timeline};
//! use seldomplough::internals::oscillators::{Doppler, HalfChip, Settings};
//! use seldomplough::internals::sample_planes::{Format, PackedSamples};
//!
//! // One client, with four slots. Its first slot tracks satellite 5.
//! let settings = Settings::new(2_046_000, 511_500, Format::Real1)?;
//! let mut bank = Bank::open(seldomplough::Global, settings, &[4])?;
//! let slot = SlotNo::new(0).ok_or("no slot")?;
//! let signal = Signal {
//!     prn: Prn::new(5).ok_or("no satellite")?,
//!     doppler: Doppler::new(1_250).ok_or("no shift")?,
//!     half: HalfChip::new(700).ok_or("no half chip")?,
//! };
//! let answer = bank.command(1, Command::Track { slot, signal });
//! bank.command(1, Command::Counts { slot, n: 5 });
//! let mut locked_at = None;
//! let mut timeline = Timeline::new(seldomplough::Global)?;
//! bank.try_feed(&PackedSamples::new(Format::Real1, &[0x5a; 128]), &mut timeline)?;
//! for emitted in timeline.events() {
//!     match emitted.event {
//!         Event::Count(counts) => assert!(counts.ip.unsigned_abs() < 4_096),
//!         Event::Lock => locked_at = Some(emitted.time),
//!         _ => {}
//!     }
//! }
//! # Ok(())
//! # }
//! ```

mod bank;
mod feed_fault;
mod open_fault;
mod seat;
mod seats;
mod slot;
mod slot_news;
mod stage;
mod timeline;

pub use bank::Bank;
pub use feed_fault::FeedFault;
pub use open_fault::OpenFault;
pub use crate::sample_planes::MOST_TIME;
pub use seats::MOST_CLIENTS;
pub use slot::{SLOT_EVENTS, Slot};
pub use slot_news::{DUMP_EVENTS, SlotNews};
pub use crate::slot_protocol::{
    Answer, Command, Event, MOST_SLOTS, Phase, Refusal, SlotEvent, SlotNo, SlotState,
};
pub use timeline::{RUN_EVENTS, Timeline};
