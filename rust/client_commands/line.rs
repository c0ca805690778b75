// Made by tools/rust of crates/client_commands/src/line.rt: change that.
//! The entry of one line: its time, and a command or why it is refused.

use crate::client_commands::number::number_in;
use crate::client_commands::refusal::LineRefusal;
use crate::client_commands::script::Timed;
use crate::client_commands::verb::Verb;
use crate::client_commands::words::next_word;
use crate::sample_planes::MOST_TIME;
use crate::slot_protocol::Command;

/// The most bytes of a line of a script.
const SCRIPT_LINE_BYTES: usize = 80;

/// The entry of a line that follows one of time `before`, in the script of a client with a share of
/// the slots. A line without words has none.
pub(crate) fn entry(line: &[u8], before: u64, share: u8) -> Option<Timed> {
    if SCRIPT_LINE_BYTES < line.len() {
        return refusal_at(before, LineRefusal::LineTooLong);
    }
    if !is_printable(line) {
        return refusal_at(before, LineRefusal::NotPrintable);
    }
    let (word, rest) = next_word(line)?;
    match time_in(word) {
        None => refusal_at(before, LineRefusal::NoTime),
        Some(time) if time < before => refusal_at(before, LineRefusal::TimeGoesBack),
        Some(time) => Some(Timed {
            time,
            what: command(rest, share),
        }),
    }
}

/// Whether each byte is one from 0x20 to 0x7e.
fn is_printable(line: &[u8]) -> bool {
    line.iter().all(|b| 0x20 <= *b && *b <= 0x7e)
}

/// The time that a word gives.
fn time_in(word: &[u8]) -> Option<u64> {
    number_in(word).filter(|time| *time <= MOST_TIME)
}

/// A refusal at a time.
fn refusal_at(time: u64, refusal: LineRefusal) -> Option<Timed> {
    Some(Timed {
        time,
        what: Err(refusal),
    })
}

/// The command that the words after the time ask for.
fn command(words: &[u8], share: u8) -> Result<Command, LineRefusal> {
    let (name, words) = next_word(words).ok_or(LineRefusal::NoVerb)?;
    let verb = Verb::with_name(name).ok_or(LineRefusal::NoVerb)?;
    verb.command(words, share)
}
