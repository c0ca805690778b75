// Made by tools/rust of crates/tracking_loops/src/loops.rt: change that.
//! The loops of a tracking channel.

use crate::tracking_loops::limits::{MOST_STEERED_DUMPS, MOST_SUM};
use crate::tracking_loops::lock::Lock;
use crate::tracking_loops::news::News;
use crate::tracking_loops::steering::{FIRST_HOLDING, Steering};
use crate::lane_correlator::Counts;
use crate::oscillators::MOST_SHIFT;

/// The loops of one tracking channel, from its first dump on. (This project's own.)
///
/// Dumps, numbered from 1, come about once a code period (1 ms). Up to dump 199 the turn of the
/// carrier between two dumps pulls the frequency in, and from dump 200 on the phase is held. From
/// there on each 20 dumps are a window, which is good where the sizes of the prompt sums in phase
/// add up to at least twice those in quadrature; a window whose sums are all 0 is good.
#[derive(Debug)]
pub struct Loops {
    steering: Steering,
    lock: Lock,
}

impl Loops {
    /// Begins with the carrier's shift `v`, in 1/65536 Hz, at most `MOST_SHIFT` in size, and no
    /// dumps.
    pub fn start(v: i64) -> Self {
        assert!(
            v.unsigned_abs() <= u64::from(MOST_SHIFT),
            "Loops::start requires |v| <= MOST_SHIFT"
        );
        Loops {
            steering: Steering::start(v),
            lock: Lock::new(),
        }
    }

    /// Takes the sums of the next dump, each at most `MOST_SUM` in size, and gives what they make
    /// of the lock. After `Lost` the rules stay the same; a channel ends there.
    pub fn take(&mut self, counts: Counts) -> News {
        assert!(
            (counts.ie.unsigned_abs() <= MOST_SUM)
                & (counts.qe.unsigned_abs() <= MOST_SUM)
                & (counts.ip.unsigned_abs() <= MOST_SUM)
                & (counts.qp.unsigned_abs() <= MOST_SUM)
                & (counts.il.unsigned_abs() <= MOST_SUM)
                & (counts.ql.unsigned_abs() <= MOST_SUM),
            "Loops::take requires sums of at most MOST_SUM in size"
        );
        assert!(
            self.dumps() < MOST_STEERED_DUMPS,
            "Loops::take requires dumps() < MOST_STEERED_DUMPS"
        );
        self.steering.take(counts);
        if self.steering.dumps < FIRST_HOLDING {
            return News::Nothing;
        }
        self.lock.take(&counts)
    }

    /// The carrier's shift, in 1/65536 Hz.
    pub fn v(&self) -> i64 {
        self.steering.v
    }

    /// The correction of the code's rate, in 1/65536 chip a second.
    pub fn w(&self) -> i64 {
        self.steering.w
    }

    /// The number of dumps taken.
    pub fn dumps(&self) -> u64 {
        self.steering.dumps
    }

    /// Whether the channel is locked to its signal: one of the last ten windows is good.
    pub fn locked(&self) -> bool {
        self.lock.is_locked
    }
}
