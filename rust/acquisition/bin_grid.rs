// Made by tools/rust of crates/acquisition/src/bin_grid.rt: change that.
//! The powers of the cells of a bin, for those who look at all of them.

use crate::acquisition::bin_powers::BinPowers;
use crate::acquisition::bin_steps::BinSteps;
use crate::acquisition::dwell::Dwell;
use crate::acquisition::ones::Ones;
use crate::acquisition::plan::{BIN_CELLS, Plan};
use crate::ca_codes::CodeBook;
use crate::oscillators::Settings;
use crate::sample_planes::SampleSource;

/// The powers of the cells of bin number `k` of a plan, the lowest shift first, by half chips: over
/// the dwell that begins with sample `start`, at most `MOST_TIME`. A `Search` of the plan does the
/// same cells, and names the first greatest one. The book is any book of codes.
pub fn powers_of_bin<S: SampleSource>(
    plan: &Plan,
    settings: &Settings,
    start: u64,
    k: usize,
    source: &S,
    book: &mut CodeBook,
) -> [u64; BIN_CELLS] {
    let dwell = Dwell {
        start,
        periods: plan.dwell(),
        per_period: settings.per_ms(),
    };
    let ones = Ones::new(plan.prn(), book);
    let steps = BinSteps::new(plan, settings).bin(k);
    let mut powers = BinPowers::new();
    let work = BIN_CELLS * plan.dwell() as usize;
    powers.advance(work, &dwell, steps, &ones, source);
    powers.all()
}
