// Made by tools/rust of crates/acquisition/src/sums.rt: change that.
//! The sums over samples with the prompt chips, and their power.

/// The greatest sum over a period of the code in size: 20,000 samples, each at most `MOST_PRODUCT`.
pub(crate) const MOST_PERIOD_SUM: u32 = 180_000;

/// The greatest power over a period: the squares of two such sums.
pub(crate) const MOST_PERIOD_POWER: u64 = 64_800_000_000;

/// The sums of samples with the prompt chips, in phase and in quadrature.
#[derive(Clone, Copy, Debug)]
pub(crate) struct Sums {
    pub(crate) in_phase: i32,
    pub(crate) quadrature: i32,
}

impl Sums {
    /// The sums of no samples.
    pub(crate) const NONE: Sums = Sums {
        in_phase: 0,
        quadrature: 0,
    };

    /// The sum of the squares of both, which are sums over at most a period.
    pub(crate) fn power(self) -> u64 {
        square(self.in_phase) + square(self.quadrature)
    }
}

/// A sum times itself.
fn square(sum: i32) -> u64 {
    let size = u64::from(sum.unsigned_abs());
    size * size
}
