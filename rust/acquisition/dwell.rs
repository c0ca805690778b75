// Made by tools/rust of crates/acquisition/src/dwell.rt: change that.
//! The samples that an acquisition looks at.

use crate::acquisition::bin_steps::Steps;
use crate::acquisition::period_sums::PeriodSums;
use crate::sample_planes::SampleSource;

/// The samples that an acquisition looks at: so many periods of so many samples, from sample
/// `start` of the recording on.
#[derive(Debug)]
pub(crate) struct Dwell {
    pub(crate) start: u64,
    pub(crate) periods: u32,
    pub(crate) per_period: u32,
}

impl Dwell {
    /// The number of the sample after the last.
    pub(crate) fn end(&self) -> u64 {
        self.start + u64::from(self.periods) * u64::from(self.per_period)
    }

    /// Sets sums to those of a period of the dwell, by these steps of the code and the carrier.
    /// Both begin with the dwell.
    pub(crate) fn sum_up<S: SampleSource>(
        &self,
        period: u32,
        steps: Steps,
        source: &S,
        sums: &mut PeriodSums,
    ) {
        let before = u64::from(period) * u64::from(self.per_period);
        let len = self.per_period as usize;
        sums.fill(source, self.start + before, before, len, steps);
    }
}
