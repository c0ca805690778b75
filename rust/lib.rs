// Made by tools/rust of crates.txt and crates/seldomplough/src/lib.rt: change those.
//! Receiver channels for GPS L1 C/A and its LNAV message, in one crate. Samples go in as bytes, and
//! typed events come out: counts, acquisitions, lock changes, subframes, pages and almanacs.
//!
//! A `Receiver` has the slots of one to eight clients over one recording. `take` takes packed
//! samples from the front of bytes, however they are cut, and `events` has what the slots emit with
//! them. Each client's events are proved to be those of a receiver with that client alone. A
//! `Packing` makes packed samples of a recording's values, which come in pieces too.
//!
//! ```
//! # fn main() -> Result<(), std::boxed::Box<dyn core::error::Error>> {
//! use seldomplough::{Doppler, Event, Format, HalfChip, Prn, Receiver};
//! use seldomplough::{Settings, Signal, SlotNo};
//!
//! // One client, with four slots. Its first slot tracks satellite 5.
//! let settings = Settings::new(2_046_000, 511_500, Format::Real1)?;
//! let mut receiver = Receiver::open(seldomplough::Global, settings, &[4])?;
//! let slot = SlotNo::new(0).ok_or("no slot")?;
//! let signal = Signal {
//!     prn: Prn::new(5).ok_or("no satellite")?,
//!     doppler: Doppler::new(1_250).ok_or("no shift")?,
//!     half: HalfChip::new(700).ok_or("no half chip")?,
//! };
//! receiver.track(1, slot, signal)?;
//! receiver.counts(1, slot, 5)?;
//! let mut sums = 0;
//! let bytes = [0x5a; 1_000];
//! let mut rest: &[u8] = &bytes;
//! while !rest.is_empty() {
//!     rest = receiver.take(rest)?;
//!     for emitted in receiver.events() {
//!         if let Event::Count(counts) = emitted.event {
//!             sums += counts.ip;
//!         }
//!     }
//! }
//! assert!(sums.unsigned_abs() < 8_000);
//! # Ok(())
//! # }
//! ```
#![cfg_attr(not(any(test, feature = "programs")), no_std)]
#![deny(unsafe_code)]
// Names that only clauses use, which fell away.
#![allow(dead_code, unused_imports, unused_variables)]
// The lints are for what is exported. The parts that `internals` shows are for this project alone.
#![cfg_attr(feature = "internals", allow(missing_debug_implementations))]
#![cfg_attr(feature = "internals", allow(clippy::all, clippy::pedantic))]

extern crate alloc;

#[doc(hidden)]
pub mod kit;
mod bit_planes;
mod sample_planes;
mod ca_codes;
mod oscillators;
mod lane_correlator;
mod sample_history;
mod acquisition;
mod bit_sync;
mod nav_parity;
mod frame_sync;
mod subframes;
mod data_sets;
mod nav_message;
mod tracking_loops;
mod channels;
mod slot_protocol;
mod channel_slots;
mod client_commands;
mod printed_lines;
mod version;
#[cfg(feature = "programs")]
mod devices;
#[cfg(feature = "programs")]
mod receiver_options;
#[cfg(feature = "programs")]
mod receiver;
#[cfg(feature = "programs")]
mod receiver_cli;
mod recordings;
#[cfg(feature = "programs")]
mod packer;
#[cfg(feature = "programs")]
mod packer_cli;
mod facade;
#[cfg(any(test, feature = "internals"))]
mod made_signals;
#[cfg(test)]
mod assertions;
#[cfg(test)]
mod signal_tests;
#[cfg(test)]
mod satellite_tests;
#[cfg(test)]
mod bank_tests;
#[cfg(test)]
mod programs_tests;

pub use facade::*;

#[cfg(feature = "programs")]
#[doc(hidden)]
pub use receiver_cli::main as run_receiver;
#[cfg(feature = "programs")]
#[doc(hidden)]
pub use packer_cli::main as run_pack;

/// The parts, for the programs and the checks of this project. They may change in any version.
#[cfg(feature = "internals")]
#[doc(hidden)]
pub mod internals {
    pub use crate::kit::std;
    pub mod bit_planes {
        pub use crate::bit_planes::*;
    }
    pub mod sample_planes {
        pub use crate::sample_planes::*;
    }
    pub mod ca_codes {
        pub use crate::ca_codes::*;
    }
    pub mod oscillators {
        pub use crate::oscillators::*;
    }
    pub mod lane_correlator {
        pub use crate::lane_correlator::*;
    }
    pub mod sample_history {
        pub use crate::sample_history::*;
    }
    pub mod acquisition {
        pub use crate::acquisition::*;
    }
    pub mod bit_sync {
        pub use crate::bit_sync::*;
    }
    pub mod nav_parity {
        pub use crate::nav_parity::*;
    }
    pub mod frame_sync {
        pub use crate::frame_sync::*;
    }
    pub mod subframes {
        pub use crate::subframes::*;
    }
    pub mod data_sets {
        pub use crate::data_sets::*;
    }
    pub mod nav_message {
        pub use crate::nav_message::*;
    }
    pub mod tracking_loops {
        pub use crate::tracking_loops::*;
    }
    pub mod channels {
        pub use crate::channels::*;
    }
    pub mod slot_protocol {
        pub use crate::slot_protocol::*;
    }
    pub mod channel_slots {
        pub use crate::channel_slots::*;
    }
    pub mod client_commands {
        pub use crate::client_commands::*;
    }
    pub mod printed_lines {
        pub use crate::printed_lines::*;
    }
    pub mod version {
        pub use crate::version::*;
    }
    #[cfg(feature = "programs")]
    pub mod devices {
        pub use crate::devices::*;
    }
    #[cfg(feature = "programs")]
    pub mod receiver_options {
        pub use crate::receiver_options::*;
    }
    #[cfg(feature = "programs")]
    pub mod receiver {
        pub use crate::receiver::*;
    }
    pub mod recordings {
        pub use crate::recordings::*;
    }
    #[cfg(feature = "programs")]
    pub mod packer {
        pub use crate::packer::*;
    }
    #[cfg(any(test, feature = "internals"))]
    pub mod made_signals {
        pub use crate::made_signals::*;
    }
}
