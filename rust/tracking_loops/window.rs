// Made by tools/rust of crates/tracking_loops/src/window.rt: change that.
//! The windows of dumps that decide the lock.

use crate::lane_correlator::Counts;

/// Dumps of a window: as many as a data bit has code periods.
const DUMPS_OF_WINDOW: u8 = 20;

/// The window that isn't whole yet.
#[derive(Debug)]
pub struct LockWindow {
    /// The number of dumps of the window, fewer than `DUMPS_OF_WINDOW`.
    count: u8,
    /// The sum of the sizes of the window's prompt sums in phase.
    in_phase: u32,
    /// The sum of the sizes of the window's prompt sums in quadrature.
    quadrature: u32,
}

impl LockWindow {
    /// A window without dumps.
    pub fn new() -> Self {
        LockWindow {
            count: 0,
            in_phase: 0,
            quadrature: 0,
        }
    }

    /// Takes the next dump and, where it makes the window whole, says whether that is good. Then
    /// the next window begins.
    pub fn take(&mut self, counts: &Counts) -> Option<bool> {
        self.in_phase += counts.ip.unsigned_abs();
        self.quadrature += counts.qp.unsigned_abs();
        self.count += 1;
        if self.count < DUMPS_OF_WINDOW {
            return None;
        }
        let is_good = self.in_phase >= 2 * self.quadrature;
        self.count = 0;
        self.in_phase = 0;
        self.quadrature = 0;
        Some(is_good)
    }
}
