// Made by tools/rust of crates/channel_slots/src/feed_fault.rt: change that.
//! Why a bank may not take a run of samples.


/// Why a run of samples isn't taken. The packing is checked first, then the run's length, then that
/// of the recording.
#[non_exhaustive]
#[derive(Clone, Copy, Debug, PartialEq, Eq)]
pub enum FeedFault {
    /// The run isn't packed as the recording is.
    Packing,
    /// The run has more than `MAX_SAMPLES` samples.
    TooLong,
    /// With the run the recording would have more than `MOST_TIME` samples.
    TooMany,
}

impl core::fmt::Display for FeedFault {
    fn fmt(&self, f: &mut core::fmt::Formatter<'_>) -> core::fmt::Result {
        match self {
            FeedFault::Packing => f.write_str("the samples aren't packed as those of the bank's recording"),
            FeedFault::TooLong => f.write_str("a run has at most 1024 samples"),
            FeedFault::TooMany => f.write_str("a recording has at most 2^40 samples"),
        }
    }
}

impl core::error::Error for FeedFault {}
