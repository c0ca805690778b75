// Made by tools/rust of crates/lane_correlator/src/tally.rt: change that.
//! Six sums while they are added up.

use crate::lane_correlator::counts::Counts;
use crate::lane_correlator::lane_sums::LaneSums;
use crate::lane_correlator::wiped::Wiped;
use crate::oscillators::ChipLanes;

/// The most that a lane may come to, so that its sum fits in a byte with a sign.
pub(crate) const MOST_OF_LANE: u32 = 127;

/// Six sums while they are added up, in lanes of bytes.
///
/// A sum with chips is that of all products, less twice those whose chips are -1.
#[derive(Clone, Copy, Debug)]
pub(crate) struct Tally {
    /// All products.
    all: LaneSums,
    /// The products whose early chips are -1.
    early: LaneSums,
    /// The products whose prompt chips are -1.
    prompt: LaneSums,
    /// The products whose late chips are -1.
    late: LaneSums,
}

impl Tally {
    /// The sums over no samples.
    #[inline(always)]
    pub(crate) fn none() -> Tally {
        Tally {
            all: LaneSums::none(),
            early: LaneSums::none(),
            prompt: LaneSums::none(),
            late: LaneSums::none(),
        }
    }

    /// Adds the products of the samples of a word with three kinds of chips. A lane takes two of
    /// them, and may come to `MOST_OF_LANE`.
    #[inline(always)]
    pub(crate) fn add(self, wiped: Wiped, chips: ChipLanes) -> Tally {
        Tally {
            all: self.all.add(wiped.i, wiped.q),
            early: self.early.add(wiped.i & chips.early, wiped.q & chips.early),
            prompt: self
                .prompt
                .add(wiped.i & chips.prompt, wiped.q & chips.prompt),
            late: self.late.add(wiped.i & chips.late, wiped.q & chips.late),
        }
    }

    /// The sums.
    #[inline(always)]
    pub(crate) fn counts(&self) -> Counts {
        Counts {
            ie: self.all.in_phase(&self.early),
            qe: self.all.quadrature(&self.early),
            ip: self.all.in_phase(&self.prompt),
            qp: self.all.quadrature(&self.prompt),
            il: self.all.in_phase(&self.late),
            ql: self.all.quadrature(&self.late),
        }
    }
}
