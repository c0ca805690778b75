// Made by tools/rust of crates/seldomplough/src/too_many_samples.rt: change that.
//! Why no more samples are taken.


/// A recording has `MOST_TIME` samples at most, and those that came would be more.
#[derive(Clone, Copy, Debug, PartialEq, Eq)]
pub struct TooManySamples;

impl core::fmt::Display for TooManySamples {
    fn fmt(&self, f: &mut core::fmt::Formatter<'_>) -> core::fmt::Result {
        f.write_str("a recording has at most 2^40 samples")
    }
}

impl core::error::Error for TooManySamples {}
