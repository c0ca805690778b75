// Made by tools/rust of crates/channels/src/followed.rt: change that.
//! A satellite that is followed, at a fixed Doppler shift or as its loops steer it.

use crate::channels::follower::Follower;
use crate::channels::shift::shift_of;
use crate::channels::tracking::Tracking;
use crate::channels::window::Window;
use crate::acquisition::Signal;
use crate::ca_codes::{CodeBook, Prn};
use crate::oscillators::Settings;

/// A satellite that is followed, and the number of its dumps. Where loops steer it, each dump goes
/// to them, and their shift sets the steps of the next segment; else it goes on at the Doppler
/// shift at which it began. It stands for its channel and the samples so far.
#[derive(Debug)]
pub struct Followed {
    follower: Follower,
    dumps: u64,
    tracking: Option<Tracking>,
}

impl Followed {
    /// Begins at the next sample, which is number `time`, with the code at a half chip of its cycle
    /// and the carrier at 0; `time` is at most `MOST_TAKEN`. It goes on at this Doppler shift.
    #[inline(always)]
    pub fn hold(settings: &Settings, signal: Signal, time: u64) -> Followed {
        Followed {
            follower: Follower::start(settings, signal, time, 0),
            dumps: 0,
            tracking: None,
        }
    }

    /// Begins like `hold`, and loops that begin at this Doppler shift steer it.
    #[inline(always)]
    pub fn track(settings: &Settings, signal: Signal, time: u64) -> Followed {
        Followed::track_after(settings, signal, time, 0)
    }

    /// Begins like `track`. But the code was at the half chip `ago` samples before the next one,
    /// and has gone on since at this shift.
    #[inline(always)]
    pub fn track_after(settings: &Settings, signal: Signal, time: u64, ago: u64) -> Followed {
        let tracking = Tracking::start(settings, shift_of(signal.doppler));
        Followed {
            follower: Follower::start(settings, signal, time, ago),
            dumps: 0,
            tracking: Some(tracking),
        }
    }

    /// The satellite that it follows.
    pub fn prn(&self) -> Prn {
        self.follower.prn()
    }

    /// The number of dumps that the satellite has had.
    pub fn dumps(&self) -> u64 {
        self.dumps
    }

    /// The loops that steer it, if any do.
    pub fn tracking(&self) -> Option<&Tracking> {
        self.tracking.as_ref()
    }

    /// With how many samples of the recording the next dump comes: those before may wait.
    pub fn next_dump(&self) -> u64 {
        self.follower.ends()
    }

    /// Takes the samples of a window up to number `to`, or to the next dump if that comes before.
    /// It answers whether that came: then it is the window's, which else keeps its own. The book is
    /// any book of codes.
    // Else it is inlined whole into the slot, which has no registers left for it.
    #[inline(never)]
    pub fn take(&mut self, to: u64, window: &mut Window, book: &mut CodeBook) -> bool {
        let to = to.min(self.follower.ends());
        window.unpack();
        let Some(counts) = self.follower.take(to, window, book) else {
            return false;
        };
        self.dumps += 1;
        match &mut self.tracking {
            None => window.dump.set_plain(counts),
            Some(tracking) => {
                tracking.take(counts, &mut window.dump);
                self.follower
                    .steer(tracking.settings(), tracking.v(), tracking.w());
            }
        }
        true
    }
}
