// Made by tools/rust of crates/printed_lines/src/answers.rt: change that.
//! The words of what slots answer, and of refusals.

use crate::printed_lines::words::{KIND_BYTES, Line, WORD_BYTES};
use crate::slot_protocol::{Answer, Phase, SlotState};

/// The most bytes that the words of a state take up.
pub const STATE_BYTES: usize = KIND_BYTES + 6 * WORD_BYTES;

/// Adds the words of an answer.
pub(crate) fn put_answer(line: &mut Line, slot: u8, answer: &Answer) {
    match answer {
        Answer::Accepted => line.word(b"ok"),
        Answer::Refused(refusal) => put_refusal(line, refusal.number()),
        Answer::State(state) => put_state(line, slot, *state),
    }
}

/// Adds the words of a refusal.
pub(crate) fn put_refusal(line: &mut Line, number: u8) {
    line.word(b"err");
    line.number(number.into());
}

/// Adds the words of what a slot shows.
fn put_state(line: &mut Line, slot: u8, state: SlotState) {
    line.kind(b"state", slot);
    match state {
        SlotState::Idle => line.word(b"idle"),
        SlotState::Acquire { prn, done, cells } => {
            put_followed(line, b"acquire", prn.get(), done);
            line.number(cells);
        }
        SlotState::Hold { prn, dumps } => put_followed(line, b"hold", prn.get(), dumps),
        SlotState::Track {
            prn,
            dumps,
            v,
            w,
            phase,
        } => {
            put_followed(line, b"track", prn.get(), dumps);
            line.signed(v);
            line.signed(w);
            line.word(word_of(phase));
        }
    }
}

/// Adds how a satellite is followed, which it is, and the number of its dumps.
fn put_followed(line: &mut Line, how: &[u8], prn: u8, dumps: u64) {
    line.word(how);
    line.number(prn.into());
    line.number(dumps);
}

/// The word of how far a slot has come.
fn word_of(phase: Phase) -> &'static [u8] {
    match phase {
        Phase::Unlocked => b"open",
        Phase::Locked => b"lock",
        Phase::Edged => b"bits",
    }
}
