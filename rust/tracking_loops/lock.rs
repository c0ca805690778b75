// Made by tools/rust of crates/tracking_loops/src/lock.rt: change that.
//! Whether a channel is locked to its signal.

use crate::tracking_loops::news::News;
use crate::tracking_loops::window::LockWindow;
use crate::lane_correlator::Counts;

/// This many bad windows in a row end the lock.
const UNLOCK_WINDOWS: u8 = 10;

/// After this many bad windows in a row the signal is lost.
const LOST_WINDOWS: u8 = 50;

/// The lock, over the dumps by which the phase is held.
#[derive(Debug)]
pub struct Lock {
    window: LockWindow,
    /// The bad windows in a row, up to `LOST_WINDOWS`.
    bad_windows: u8,
    pub is_locked: bool,
}

impl Lock {
    /// The state before the first window: not locked.
    pub fn new() -> Self {
        Lock {
            window: LockWindow::new(),
            bad_windows: 0,
            is_locked: false,
        }
    }

    /// Takes the next dump, which is dump `FIRST_HOLDING` or a later one.
    pub fn take(&mut self, counts: &Counts) -> News {
        match self.window.take(counts) {
            Some(is_good) => self.take_window(is_good),
            None => News::Nothing,
        }
    }

    /// Takes a whole window.
    fn take_window(&mut self, is_good: bool) -> News {
        let was_locked = self.is_locked;
        if is_good {
            self.bad_windows = 0;
        } else if self.bad_windows < LOST_WINDOWS {
            self.bad_windows += 1;
        }
        self.is_locked = is_good || was_locked && self.bad_windows < UNLOCK_WINDOWS;
        if self.bad_windows == LOST_WINDOWS {
            News::Lost
        } else {
            change(was_locked, self.is_locked)
        }
    }
}

/// What a change of the lock is reported as.
fn change(was_locked: bool, is_locked: bool) -> News {
    match (was_locked, is_locked) {
        (false, true) => News::Lock,
        (true, false) => News::Unlock,
        _ => News::Nothing,
    }
}
