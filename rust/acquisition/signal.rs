// Made by tools/rust of crates/acquisition/src/signal.rt: change that.
//! A satellite's signal at a sample.

use crate::ca_codes::Prn;
use crate::oscillators::{Doppler, HalfChip};

/// A satellite's signal as it is assumed or found: its Doppler shift, and the half chip of its code
/// at a sample.
#[derive(Clone, Copy, Debug, PartialEq, Eq)]
pub struct Signal {
    /// The satellite.
    pub prn: Prn,
    /// The Doppler shift of its carrier.
    pub doppler: Doppler,
    /// Where its code is at the sample, in half chips from the code's first chip.
    pub half: HalfChip,
}
