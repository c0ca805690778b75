// Made by tools/rust of crates/channels/src/lib.rt: change that.
//! One satellite followed over samples. A `Follower` has the open segment of a channel: its code
//! and carrier at a sample, and its sums so far. A `Followed` is a channel with the number of its
//! dumps. It goes on at a fixed Doppler shift, or a `Tracking` sets its steps by these: the loops,
//! and the message that is read while they are locked. That is a `LockedMessage`, and each lock
//! begins a new one. A `Searched` is an acquisition, which does one cell with every four samples
//! after its dwell. Where its cell is found, `follow` gives the `Followed` satellite from the time
//! on at which the answer was due. Each stands for the samples so far. Its dumps and their news are
//! proved to be those of the definition, however the samples are cut into runs. Each says with how
//! many samples of the recording it has something to do next. Those before may wait: a `Window`
//! holds them. Nothing here knows a command or a client.
//!
#![cfg_attr(feature = "internals", doc = "```")]
#![cfg_attr(not(feature = "internals"), doc = "```ignore")]
//! # fn main() -> Result<(), std::boxed::Box<dyn core::error::Error>> {
//! use seldomplough::internals::acquisition::Signal;
//! use seldomplough::internals::ca_codes::{CodeBook, Prn};
//! use seldomplough::internals::channels::{Followed, Window};
//! use seldomplough::internals::oscillators::{Doppler, HalfChip, Settings};
//! use seldomplough::internals::sample_planes::{Format, PackedSamples};
//!
//! // Satellite 5 at a shift of 1,250 Hz, from half chip 700 on.
//! let settings = Settings::new(2_046_000, 511_500, Format::Real1)?;
//! let signal = Signal {
//!     prn: Prn::new(5).ok_or("no satellite")?,
//!     doppler: Doppler::new(1_250).ok_or("no shift")?,
//!     half: HalfChip::new(700).ok_or("no half chip")?,
//! };
//! let mut held = Followed::hold(&settings, signal, 0);
//! // As far as the next dump, or to the end of these samples.
//! let mut window = Window::new(seldomplough::Global, settings.format(), 1_024)?;
//! window.take(&PackedSamples::new(settings.format(), &[0x5a; 128]));
//! let end = window.end();
//! if held.take(end, &mut window, &mut CodeBook::new()) {
//!     let (prompt, nth) = (window.dump().counts.ip, held.dumps());
//! }
//! # Ok(())
//! # }
//! ```

mod dump;
mod followed;
mod follower;
mod locked_message;
mod searched;
mod shift;
mod tracking;
mod window;

pub use dump::Dump;
pub use followed::Followed;
pub use follower::{Follower, MOST_TAKEN};
pub use locked_message::LockedMessage;
pub use searched::{MOST_WAIT, Searched};
pub use tracking::Tracking;
pub use window::Window;
