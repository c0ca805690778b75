// Made by tools/rust of crates/client_commands/src/words.rt: change that.
//! Lines of a script, words of a line, and the values of the words after a verb.

use crate::client_commands::number::signed_number_in;
use crate::client_commands::refusal::LineRefusal;
use crate::acquisition::MOST_CENTRE;
use crate::kit::arrayvec::ArrayVec;
use crate::ca_codes::Prn;
use crate::oscillators::{Doppler, HalfChip};
use crate::slot_protocol::SlotNo;

/// The most words after a verb: those of `acquire`.
pub(crate) const MOST_WORDS: usize = 6;

/// The most dumps that a client can ask for at once.
pub const MOST_SHOWN_DUMPS: u32 = 1_000_000;

/// The place of the first byte `end` of a text.
fn place_of(end: u8, text: &[u8]) -> Option<usize> {
    text.iter().position(|b| *b == end)
}

/// What comes before the first byte `end` of a text, or all of it, and what comes after. An empty
/// text has no piece.
fn next_piece(end: u8, text: &[u8]) -> Option<(&[u8], &[u8])> {
    if text.is_empty() {
        return None;
    }
    match place_of(end, text) {
        Some(at) => Some((&text[..at], &text[at + 1..])),
        None => Some((text, &[])),
    }
}

/// The first line of a text and what follows its line feed, or `None` where the text is empty.
pub(crate) fn next_line(text: &[u8]) -> Option<(&[u8], &[u8])> {
    next_piece(b'\n', text)
}

/// The first word of a line and what follows it, or `None` where there is none.
pub(crate) fn next_word(line: &[u8]) -> Option<(&[u8], &[u8])> {
    let mut rest = line;
    while let Some((piece, behind)) = next_piece(b' ', rest) {
        if !piece.is_empty() {
            return Some((piece, behind));
        }
        rest = behind;
    }
    None
}

/// The words after a verb that are still to be read. Clauses see them as lists of bytes.
pub(crate) struct Words<'a> {
    /// All words after the verb.
    words: ArrayVec<&'a [u8], MOST_WORDS>,
    /// The number of words that are read.
    read: usize,
}

impl<'a> Words<'a> {
    /// The words of a line, of which there are to be `count`. They are split before the first of
    /// them is judged, since a wrong number of words is refused before any value.
    pub(crate) fn split(line: &'a [u8], count: usize) -> Result<Words<'a>, LineRefusal> {
        let mut words = ArrayVec::new();
        let mut rest = line;
        while let Some((word, behind)) = next_word(rest) {
            if words.is_full() {
                return Err(LineRefusal::WrongWordCount);
            }
            words.push(word);
            rest = behind;
        }
        if words.len() == count {
            Ok(Words { words, read: 0 })
        } else {
            Err(LineRefusal::WrongWordCount)
        }
    }

    /// The number that the next word writes.
    fn number(&mut self) -> Result<i64, LineRefusal> {
        let word = self.words[self.read];
        self.read += 1;
        signed_number_in(word).ok_or(LineRefusal::NotANumber)
    }

    /// The number that the next word writes, `low` to `high`.
    pub(crate) fn number_between(&mut self, low: u32, high: u32) -> Result<u32, LineRefusal> {
        let number = u32::try_from(self.number()?).ok();
        number
            .filter(|number| low <= *number && *number <= high)
            .ok_or(LineRefusal::OutOfRange)
    }

    /// The slot that the next word names, of a client with a share of the slots.
    pub(crate) fn slot(&mut self, share: u8) -> Result<SlotNo, LineRefusal> {
        let number = self.number_between(0, u32::from(share) - 1)?;
        SlotNo::new(number as u8).ok_or(LineRefusal::OutOfRange)
    }

    /// The satellite that the next word names, 1 to 32.
    pub(crate) fn prn(&mut self) -> Result<Prn, LineRefusal> {
        let number = u8::try_from(self.number()?).ok();
        number.and_then(Prn::new).ok_or(LineRefusal::OutOfRange)
    }

    /// The Doppler shift that the next word writes, -16,000 to 16,000 Hz.
    pub(crate) fn doppler(&mut self) -> Result<Doppler, LineRefusal> {
        let hz = i32::try_from(self.number()?).ok();
        hz.and_then(Doppler::new).ok_or(LineRefusal::OutOfRange)
    }

    /// The centre of a search that the next word writes, -6,000 to 6,000 Hz.
    pub(crate) fn centre(&mut self) -> Result<i32, LineRefusal> {
        let hz = i32::try_from(self.number()?).ok();
        hz.filter(|hz| hz.unsigned_abs() <= MOST_CENTRE)
            .ok_or(LineRefusal::OutOfRange)
    }

    /// The place in the code that the next word writes, 0 to 2,045 half chips.
    pub(crate) fn half_chip(&mut self) -> Result<HalfChip, LineRefusal> {
        let half_chips = u16::try_from(self.number()?).ok();
        half_chips
            .and_then(HalfChip::new)
            .ok_or(LineRefusal::OutOfRange)
    }

    /// The number of dumps that the next word writes, 0 to `MOST_SHOWN_DUMPS`.
    pub(crate) fn dumps(&mut self) -> Result<u32, LineRefusal> {
        self.number_between(0, MOST_SHOWN_DUMPS)
    }
}
