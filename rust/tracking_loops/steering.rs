// Made by tools/rust of crates/tracking_loops/src/steering.rt: change that.
//! The carrier's shift and the code's rate, dump by dump.

use crate::tracking_loops::discriminators::{code_error, frequency_error, phase_error};
use crate::lane_correlator::Counts;
use crate::oscillators::MOST_SHIFT;

/// The first dump, numbered from 1, that holds the phase. Those before it pull the frequency in.
pub const FIRST_HOLDING: u64 = 200;

/// The carrier's shift is kept within this size, in 1/65536 Hz: `MOST_SHIFT`.
const SHIFT_LIMIT: i64 = MOST_SHIFT as i64;

/// What a frequency error of one unit moves the shift by, while the frequency is pulled in.
const PULLING_GAIN: i64 = 160;

/// What a phase error of one unit moves the shift by for good.
const SLOW_GAIN: i64 = 6;

/// What a phase error of one unit adds to the shift until the next dump.
const FAST_GAIN: i64 = 170;

/// What a code error of one unit makes the correction of the code's rate.
const CODE_GAIN: i64 = 16;

/// What the dumps so far make of the shift.
#[derive(Debug)]
pub struct Steering {
    /// The number of dumps taken.
    pub dumps: u64,
    /// The last dump. Before the first all six of its sums are 0.
    last: Counts,
    /// The part of `v` that stays until the next dump.
    u: i64,
    /// The carrier's shift, in 1/65536 Hz.
    pub v: i64,
    /// The correction of the code's rate, in 1/65536 chip a second.
    pub w: i64,
}

impl Steering {
    /// Begins with the shift `v`, and no dumps.
    pub fn start(v: i64) -> Self {
        Steering {
            dumps: 0,
            last: Counts::NONE,
            u: v,
            v,
            w: 0,
        }
    }

    /// Takes the next dump.
    pub fn take(&mut self, counts: Counts) {
        (self.u, self.v) = self.carrier_with(&counts);
        self.dumps += 1;
        self.w = CODE_GAIN * code_error(&counts);
        self.last = counts;
    }

    /// The new `u` and `v`, with one more dump.
    fn carrier_with(&self, counts: &Counts) -> (i64, i64) {
        if self.dumps + 1 < FIRST_HOLDING {
            let u = clamp_shift(self.u + PULLING_GAIN * frequency_error(&self.last, counts));
            return (u, u);
        }
        let error = phase_error(counts);
        let u = clamp_shift(self.u + SLOW_GAIN * error);
        (u, clamp_shift(u + FAST_GAIN * error))
    }
}

fn clamp_shift(shift: i64) -> i64 {
    shift.clamp(-SHIFT_LIMIT, SHIFT_LIMIT)
}
