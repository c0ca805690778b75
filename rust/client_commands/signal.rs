// Made by tools/rust of crates/client_commands/src/signal.rt: change that.
//! The words with which a slot begins to follow a satellite.

use crate::client_commands::refusal::LineRefusal;
use crate::client_commands::words::Words;
use crate::acquisition::Signal;

/// The signal of three words: satellite, Doppler shift and half chip.
pub(crate) fn read_signal(words: &mut Words<'_>) -> Result<Signal, LineRefusal> {
    Ok(Signal {
        prn: words.prn()?,
        doppler: words.doppler()?,
        half: words.half_chip()?,
    })
}
