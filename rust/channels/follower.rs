// Made by tools/rust of crates/channels/src/follower.rt: change that.
//! One segment of a satellite.

use crate::channels::shift::shift_of;
use crate::channels::window::Window;
use crate::acquisition::Signal;
use crate::ca_codes::{CodeBook, Prn};
use crate::lane_correlator::{Counts, replica_sums};
use crate::oscillators::{CarrierOsc, CodeOsc, MOST_CORRECTION, MOST_SHIFT, Settings};

/// The least step of a code, in 2^-32 chip a sample: below that of any settings.
const LEAST_STEP: u32 = 200_000_000;

/// The most of such a step: above that of any settings.
const MOST_STEP: u32 = 3_000_000_000;

/// Far more samples than a recording has, so that a sum of a few of their numbers fits in 64 bits.
pub const MOST_TAKEN: u64 = 1 << 62;

/// The open segment of a channel: the satellite, the code and the carrier at sample `at`, and the
/// sums so far. The samples after these wait, none of which ends the segment. It stands for the
/// channel and all samples, those that wait with them.
#[derive(Debug)]
pub struct Follower {
    prn: Prn,
    code: CodeOsc,
    carrier: CarrierOsc,
    sums: Counts,
    /// How many samples of the recording it has taken.
    at: u64,
    /// With how many of them the segment ends.
    ends: u64,
}

impl Follower {
    /// Begins at the next sample, which is number `time`, with the carrier at 0. The code was at a
    /// half chip of its cycle `ago` samples before that one, and has gone on since at this Doppler
    /// shift, as it does from here on.
    #[inline(always)]
    pub fn start(settings: &Settings, signal: Signal, time: u64, ago: u64) -> Follower {
        let v = shift_of(signal.doppler);
        let mut code = CodeOsc::new(signal.half, settings.code_step(v, 0));
        code.jump(ago);
        Follower {
            prn: signal.prn,
            at: time,
            ends: time + code.to_wrap(),
            code,
            carrier: CarrierOsc::new(settings.carrier_step(v)),
            sums: Counts::NONE,
        }
    }

    /// The satellite that it follows.
    pub fn prn(&self) -> Prn {
        self.prn
    }

    /// With how many samples of the recording the segment ends: those before may wait.
    pub fn ends(&self) -> u64 {
        self.ends
    }

    /// Takes the samples of a window up to number `to`, which isn't after the segment's end. It
    /// answers the segment's sums if it ends there. The book is any book of codes.
    pub fn take(&mut self, to: u64, window: &Window, book: &mut CodeBook) -> Option<Counts> {
        let from = window.place(self.at);
        let len = (to - self.at) as usize;
        let more = replica_sums(
            window.planes(),
            from,
            len,
            &self.carrier,
            &self.code,
            book,
            self.prn,
        );
        let sums = self.sums.add(&more);
        self.code.advance(len as u64);
        self.carrier.advance(len as u64);
        self.at = to;
        if to < self.ends {
            self.sums = sums;
            return None;
        }
        self.sums = Counts::NONE;
        self.ends = to + self.code.to_wrap();
        Some(sums)
    }

    /// Goes on with the steps of a Doppler shift `v`, in 1/65536 Hz, and of a correction `w` of the
    /// code's rate, in 1/65536 chip a second, where a segment has just been opened. Its sums begin
    /// at 0.
    pub fn steer(&mut self, settings: &Settings, v: i64, w: i64) {
        assert!(
            v.unsigned_abs() <= u64::from(MOST_SHIFT),
            "Follower::steer requires |v| <= MOST_SHIFT"
        );
        assert!(
            w.unsigned_abs() <= u64::from(MOST_CORRECTION),
            "Follower::steer requires |w| <= MOST_CORRECTION"
        );
        self.code.set_step(settings.code_step(v, w));
        self.carrier.set_step(settings.carrier_step(v));
        self.sums = Counts::NONE;
        self.ends = self.at + self.code.to_wrap();
    }
}
