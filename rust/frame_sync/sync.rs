// Made by tools/rust of crates/frame_sync/src/sync.rt: change that.
//! The search for subframes: where they start, and what gap is before each.

use crate::frame_sync::incoming::{Incoming, SUBFRAME_BITS};
use crate::frame_sync::last_bits::LastBits;
use crate::frame_sync::subframe::Subframe;

/// The most bits that are pushed to a search: those of more than 600 years.
pub const MOST_BITS: u64 = 1 << 40;

/// A subframe that was found, and the gap before it.
#[derive(Clone, Copy, Debug, PartialEq, Eq)]
pub struct Found {
    /// The ten words, each there exactly where it passes with the two bits before it (IS-GPS-200,
    /// section 20.3.5).
    pub subframe: Subframe,
    /// How many bits are between the end of the subframe before and this one's start, if there was
    /// one before and there are such bits.
    pub gap: Option<u64>,
}

/// A search for subframes among bits that are pushed one by one. It keeps the last 64 bits and the
/// words of one subframe, whatever was pushed.
#[derive(Debug)]
pub struct FrameSync {
    window: LastBits,
    pushed: u64,
    awaited: Option<u64>,
    incoming: Option<Incoming>,
}

impl FrameSync {
    /// A search that no bit was pushed to.
    #[must_use]
    pub fn new() -> Self {
        FrameSync {
            window: LastBits::new(),
            pushed: 0,
            awaited: None,
            incoming: None,
        }
    }

    /// How many bits were pushed.
    #[must_use]
    pub fn pushed(&self) -> u64 {
        self.pushed
    }

    /// Takes the next bit, and gives the subframe of which it is the 300th bit, if there is one,
    /// with the gap before it.
    ///
    /// A start is the first place, from the end of the subframe before on, where a header stands:
    /// two words that pass with the bits before them (IS-GPS-200, section 20.3.5), the first with
    /// the preamble (section 20.3.3.1), the second with an ID of 1 to 5 (section 20.3.3.2). The two
    /// bits before it are equal, and so are they to the last two. That search is this project's
    /// own.
    ///
    /// # Panics
    ///
    /// Plain Rust panics where `MOST_BITS` bits were pushed.
    pub fn push(&mut self, bit: bool) -> Option<Found> {
        assert!(
            self.pushed < MOST_BITS,
            "FrameSync::push requires pushed() < MOST_BITS"
        );
        let before = self.incoming.take();
        self.window.push(bit);
        self.pushed += 1;
        let Some(before) = before else {
            self.incoming = Incoming::starting(&self.window, self.pushed, self.awaited);
            return None;
        };
        let incoming = before.with_word(&self.window, self.pushed);
        if self.pushed - incoming.start < SUBFRAME_BITS {
            self.incoming = Some(incoming);
            return None;
        }
        let gap = gap_between(self.awaited, incoming.start);
        self.awaited = Some(self.pushed);
        Some(Found {
            subframe: incoming.subframe,
            gap,
        })
    }
}

impl Default for FrameSync {
    /// A search that no bit was pushed to.
    fn default() -> FrameSync {
        FrameSync::new()
    }
}

/// How many bits after the awaited place a subframe starts.
fn gap_between(awaited: Option<u64>, start: u64) -> Option<u64> {
    let place = awaited?;
    if place == start {
        None
    } else {
        Some(start - place)
    }
}
