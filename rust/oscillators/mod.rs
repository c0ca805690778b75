// Made by tools/rust of crates/oscillators/src/lib.rt: change that.
//! The settings of a recording, and the oscillators that follow a satellite's carrier and code
//! through its samples.
//!
//! `Settings` gives the steps for a Doppler shift; `CarrierOsc` and `CodeOsc` keep a phase and step
//! it on. They give the replica in words of 64 samples, as lanes of bytes, or of up to 1,024
//! samples as planes of bits. Each step, phase and value is proved to be that of its definition,
//! for every step of 32 bits.
//!
#![cfg_attr(feature = "internals", doc = "```")]
#![cfg_attr(not(feature = "internals"), doc = "```ignore")]
//! # fn main() -> Result<(), std::boxed::Box<dyn core::error::Error>> {
//! use seldomplough::internals::oscillators::{CarrierOsc, CodeOsc, Doppler, HalfChip, Settings};
//! use seldomplough::internals::sample_planes::Format;
//!
//! let settings = Settings::new(2_046_000, 511_500, Format::Real1)?;
//! let shift = i64::from(Doppler::new(1_250).ok_or("no shift")?.get()) * 65_536;
//! let carrier = CarrierOsc::new(settings.carrier_step(shift));
//! let start = HalfChip::new(700).ok_or("no half chip")?;
//! let code = CodeOsc::new(start, settings.code_step(shift, 0));
//! # Ok(())
//! # }
//! ```

mod carrier;
mod carrier_strides;
mod carrier_words;
mod carries;
mod chip_set;
mod code;
mod code_strides;
mod code_words;
mod doppler;
mod half_chip;
mod settings;

pub use carrier::{CarrierOsc, CarrierPlanes, MOST_PRODUCT};
pub use carrier_words::CarrierWords;
pub use code::{CODE_CYCLE, CodeOsc, CodePlanes, in_cycle};
pub use code_strides::HALF_CHIP;
pub use code_words::{ChipLanes, CodeWords, MOST_WINDOW_STEP};
pub use doppler::{Doppler, MOST_DOPPLER};
pub use half_chip::{HalfChip, LAST_HALF_CHIP};
pub use settings::{
    LEAST_CODE_STEP, LEAST_PER_MS, LEAST_RATE, MOST_CODE_STEP, MOST_CORRECTION, MOST_PER_MS,
    MOST_RATE, MOST_SHIFT, Settings, SettingsFault,
};
