// Made by tools/rust of crates/frame_sync/src/incoming.rt: change that.
//! The subframe whose bits are coming in.

use crate::frame_sync::last_bits::LastBits;
use crate::frame_sync::subframe::Subframe;

/// The bits by which a start is recognised: words 1 and 2.
pub const HEADER_BITS: u64 = 60;

/// The bits of a subframe's ten words (IS-GPS-200, section 20.3.2).
pub const SUBFRAME_BITS: u64 = 300;

/// The bits of a word (IS-GPS-200, section 20.3.2).
const WORD_BITS: u64 = 30;

/// The first place that has the two bits before it which its word is checked with.
const FIRST_PLACE: u64 = 2;

/// A subframe whose header is there, and the words after the header as far as their bits have come:
/// the place of its first bit, from 0, and the words.
#[derive(Clone, Copy, Debug)]
pub(crate) struct Incoming {
    pub(crate) start: u64,
    pub(crate) subframe: Subframe,
}

impl Incoming {
    /// The subframe whose header ends with the newest bit, if there is one and it may start there:
    /// not inside the subframe before it, at whose end it is awaited.
    pub(crate) fn starting(window: &LastBits, pushed: u64, awaited: Option<u64>) -> Option<Self> {
        let start = pushed.checked_sub(HEADER_BITS)?;
        if start < awaited.unwrap_or(FIRST_PLACE) {
            return None;
        }
        let subframe = window.header()?;
        Some(Incoming { start, subframe })
    }

    /// The subframe with the word that ends with the newest bit, if one does.
    pub(crate) fn with_word(self, window: &LastBits, pushed: u64) -> Self {
        let taken = pushed - self.start;
        if taken % WORD_BITS != 0 {
            return self;
        }
        let word = window.word(0);
        Incoming {
            start: self.start,
            subframe: self.subframe.with_word((taken / WORD_BITS) as usize, word),
        }
    }
}
