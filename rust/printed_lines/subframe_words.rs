// Made by tools/rust of crates/printed_lines/src/subframe_words.rt: change that.
//! The words of a subframe, each as hexadecimal digits.

use crate::printed_lines::words::{KIND_BYTES, Line, WORD_BYTES};
use crate::frame_sync::{SUBFRAME_WORDS, Subframe};

/// The bytes that a data word takes up: a space and six digits.
pub const DATA_BYTES: usize = 7;

/// The most bytes that the words of a subframe take up.
pub const SUBFRAME_BYTES: usize = KIND_BYTES + 2 * WORD_BYTES + SUBFRAME_WORDS * DATA_BYTES;

/// Adds the ID, the time of week and the ten words of a subframe (IS-GPS-200, section 20.3.3).
pub(crate) fn put_subframe(line: &mut Line, slot: u8, subframe: &Subframe) {
    line.kind(b"sub", slot);
    line.number(subframe.id().into());
    line.number(subframe.tow().into());
    put_words(line, subframe);
}

/// Adds the ten words of a subframe.
fn put_words(line: &mut Line, subframe: &Subframe) {
    for i in 0..SUBFRAME_WORDS {
        put_word(line, subframe.word(i + 1));
    }
}

/// Adds the six digits of a data word, or six dashes where it is missing.
fn put_word(line: &mut Line, word: Option<u32>) {
    line.text(b" ");
    match word {
        None => line.text(b"------"),
        Some(bits) => {
            let [_, high, middle, low] = bits.to_be_bytes();
            line.hex(high);
            line.hex(middle);
            line.hex(low);
        }
    }
}
