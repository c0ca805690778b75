// Made by tools/rust of crates/lane_correlator/src/lib.rt: change that.
//! The sums of a correlator over a run of samples: samples times the conjugate of a carrier, times
//! the chips of a code.
//!
//! `replica_sums` gives the sums with the early, prompt and late chips, in phase and in quadrature.
//! It makes the carrier and the code on the way, 64 samples at a time, and adds up products in
//! lanes of bytes. It is proved to give the plain sums over every range of the run, for real and
//! for complex samples. `Products` are samples without their carrier, one by one. (IS-GPS-200 has
//! the signal alone; how a receiver correlates with it is this project's own.)
//!
#![cfg_attr(feature = "internals", doc = "```")]
#![cfg_attr(not(feature = "internals"), doc = "```ignore")]
//! # fn main() -> Result<(), std::boxed::Box<dyn core::error::Error>> {
//! use seldomplough::internals::ca_codes::{CodeBook, Prn};
//! use seldomplough::internals::lane_correlator::replica_sums;
//! use seldomplough::internals::oscillators::{CarrierOsc, CodeOsc, HalfChip, Settings};
//! use seldomplough::internals::sample_planes::{Format, PackedSamples};
//!
//! // A carrier and a code that begin with the run's first sample, at no Doppler shift.
//! let settings = Settings::new(2_046_000, 511_500, Format::Real1)?;
//! let prn = Prn::new(5).ok_or("no satellite")?;
//! let half = HalfChip::new(700).ok_or("no half chip")?;
//! let carrier = CarrierOsc::new(settings.carrier_step(0));
//! let code = CodeOsc::new(half, settings.code_step(0, 0));
//! let run = PackedSamples::new(settings.format(), &[0x5a; 128]).unpack();
//! let counts = replica_sums(&run, 0, run.len(), &carrier, &code, &mut CodeBook::new(), prn);
//! # Ok(())
//! # }
//! ```

mod counts;
mod lane_sums;
mod products;
mod replica;
mod running_sums;
mod tally;
mod wiped;
mod with_replica;

pub use counts::Counts;
pub use crate::oscillators::MOST_PRODUCT;
pub use products::{MOST_AT_ONCE, Products};
pub use with_replica::replica_sums;
