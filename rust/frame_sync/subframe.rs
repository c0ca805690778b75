// Made by tools/rust of crates/frame_sync/src/subframe.rt: change that.
//! The ten words of a subframe, as far as they passed.

use crate::nav_parity::DATA_LIMIT;

/// d1 to d8 of each telemetry word (IS-GPS-200, section 20.3.3.1).
const PREAMBLE: u32 = 0b1000_1011;

/// The words of a subframe (IS-GPS-200, section 20.3.2).
pub const SUBFRAME_WORDS: usize = 10;

/// The words by which a subframe is recognised: telemetry and handover (IS-GPS-200, sections
/// 20.3.3.1 and 20.3.3.2).
pub const HEADER_WORDS: usize = 2;

/// The greatest ID of a subframe; the least is 1 (IS-GPS-200, section 20.3.3.2).
pub const LAST_ID: u8 = 5;

/// A time-of-week count, of 17 bits, is below this (IS-GPS-200, section 20.3.3.2).
pub const COUNT_LIMIT: u32 = 1 << 17;

/// The words of a subframe (IS-GPS-200, section 20.3.2), each as its data, d1 to d24 with d24
/// lowest, or missing where it did not pass the parity. Words 1 and 2 are always there.
#[derive(Clone, Copy, Debug, PartialEq, Eq)]
pub struct Subframe {
    words: [Option<u32>; SUBFRAME_WORDS],
}

impl Subframe {
    /// The subframe of these words, word 1 first, or `None` unless each word that is there is below
    /// 2^24, word 1 is there and begins with the preamble, and word 2 is there and has an ID of
    /// 1 to 5 (IS-GPS-200, sections 20.3.3.1 and 20.3.3.2).
    #[must_use]
    pub fn from_words(words: [Option<u32>; SUBFRAME_WORDS]) -> Option<Subframe> {
        if has_header(words[0], words[1]) && words.iter().all(|word| is_word(*word)) {
            Some(Subframe { words })
        } else {
            None
        }
    }

    /// The data of word `i`, d1 to d24 with d24 lowest, or `None` where it did not pass the parity
    /// (IS-GPS-200, section 20.3.5).
    ///
    /// # Panics
    ///
    /// Plain Rust panics where `i` is not 1 to `SUBFRAME_WORDS`.
    #[must_use]
    pub fn word(&self, i: usize) -> Option<u32> {
        assert!(
            1 <= i && i <= SUBFRAME_WORDS,
            "Subframe::word requires 1 <= i <= SUBFRAME_WORDS"
        );
        self.words[i - 1]
    }

    /// The subframe's ID, d20 to d22 of the handover word, from 1 to 5 (IS-GPS-200, section
    /// 20.3.3.2).
    #[must_use]
    pub fn id(&self) -> u8 {
        id_in(self.handover())
    }

    /// The time-of-week count, d1 to d17 of the handover word: the start of the next subframe, in
    /// units of 6 seconds (IS-GPS-200, section 20.3.3.2).
    #[must_use]
    pub fn tow(&self) -> u32 {
        self.handover() >> 7
    }

    /// Whether no word is missing.
    #[must_use]
    pub fn complete(&self) -> bool {
        self.words.iter().all(|word| word.is_some())
    }

    /// The subframe with its word `i` replaced by this one, or missing.
    pub(crate) fn with_word(self, i: usize, word: Option<u32>) -> Subframe {
        let mut words = self.words;
        words[i - 1] = word;
        Subframe { words }
    }

    /// The data of word 2.
    fn handover(&self) -> u32 {
        match self.words[1] {
            Some(handover) => handover,
            None => unreachable!(),
        }
    }
}

/// Whether word 1 has the preamble, and word 2 an ID of 1 to 5.
fn has_header(first: Option<u32>, second: Option<u32>) -> bool {
    let (Some(telemetry), Some(handover)) = (first, second) else {
        return false;
    };
    telemetry >> 16 == PREAMBLE && matches!(id_in(handover), 1..=5)
}

/// d20 to d22 of the handover word.
fn id_in(handover: u32) -> u8 {
    (handover >> 2 & 7) as u8
}

/// Whether a word, if it is there, is one of 24 bits.
fn is_word(word: Option<u32>) -> bool {
    word.is_none_or(|found| found < DATA_LIMIT)
}
