// Made by tools/rust of crates/channels/src/tracking.rt: change that.
//! The loops that steer a satellite, and its message while they are locked.

use crate::channels::dump::Dump;
use crate::channels::locked_message::LockedMessage;
use crate::lane_correlator::Counts;
use crate::oscillators::Settings;
use crate::tracking_loops::Loops;

/// The loops of a satellite, which its dumps go to, and its message, which is read while they are
/// locked. It stands for the sums of these dumps, and for the shift at which the loops began.
#[derive(Debug)]
pub struct Tracking {
    settings: Settings,
    loops: Loops,
    message: LockedMessage,
}

impl Tracking {
    /// Loops that begin at a Doppler shift, in 1/65536 Hz, before the first dump.
    pub fn start(settings: &Settings, v: i64) -> Tracking {
        Tracking {
            settings: *settings,
            loops: Loops::start(v),
            message: LockedMessage::new(),
        }
    }

    /// Takes the sums of the next dump, each at most `MOST_SUM` in size, and makes `dump` them and
    /// what they bring.
    pub fn take(&mut self, counts: Counts, dump: &mut Dump) {
        dump.counts = counts;
        dump.lock = self.loops.take(counts);
        self.message
            .take(&counts, self.loops.locked(), &mut dump.message);
    }

    /// What is known of the recording.
    pub fn settings(&self) -> &Settings {
        &self.settings
    }

    /// The carrier's Doppler shift from the last dump on, in 1/65536 Hz.
    pub fn v(&self) -> i64 {
        self.loops.v()
    }

    /// The correction of the code's rate at which it goes on, in 1/65536 chip a second.
    pub fn w(&self) -> i64 {
        self.loops.w()
    }

    /// Whether the loops are locked to the signal.
    pub fn is_locked(&self) -> bool {
        self.loops.locked()
    }

    /// Whether the edge of the data bits is found since the last lock.
    pub fn has_edge(&self) -> bool {
        self.message.has_edge()
    }
}
