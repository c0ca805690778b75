// Made by tools/rust of crates/acquisition/src/bin_steps.rt: change that.
//! The steps of the code and the carrier in the bins of a plan.

use crate::acquisition::plan::{MOST_BINS, Plan};
use crate::oscillators::{LEAST_CODE_STEP, Settings};

/// How far a sample takes the code, in 2^-32 chip, and the carrier, in 2^-32 cycle.
#[derive(Clone, Copy)]
pub(crate) struct Steps {
    pub(crate) code: u32,
    pub(crate) carrier: u32,
}

/// The steps in each bin of a plan, from the lowest shift up.
#[derive(Debug)]
pub(crate) struct BinSteps {
    code: [u32; MOST_BINS],
    carrier: [u32; MOST_BINS],
}

impl BinSteps {
    /// The steps of a plan's bins in recordings of these settings. The code has the least step
    /// where there is no bin, so that none of them is 0.
    pub(crate) fn new(plan: &Plan, settings: &Settings) -> BinSteps {
        let mut code = [LEAST_CODE_STEP; MOST_BINS];
        let mut carrier = [0; MOST_BINS];
        for k in 0..plan.bin_count() {
            let shift = plan.shift(k);
            code[k] = settings.code_step(shift, 0);
            carrier[k] = settings.carrier_step(shift);
        }
        BinSteps { code, carrier }
    }

    /// The steps in bin `k`.
    pub(crate) fn bin(&self, k: usize) -> Steps {
        Steps {
            code: self.code[k],
            carrier: self.carrier[k],
        }
    }
}
