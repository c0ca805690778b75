// Made by tools/rust of crates/bank_tests/src/commands.rt: change that.
//! Commands by the numbers that a line has, or none where a number is out of its range.

use crate::acquisition::{Plan, Signal};
use crate::ca_codes::Prn;
use crate::oscillators::{Doppler, HalfChip};
use crate::slot_protocol::{Command, SlotNo};

/// A signal by its shift in Hz and its half chip.
fn signal(prn: u8, doppler: i32, half: u16) -> Option<Signal> {
    Some(Signal {
        prn: Prn::new(prn)?,
        doppler: Doppler::new(doppler)?,
        half: HalfChip::new(half)?,
    })
}

/// A hold from a shift in Hz and a half chip on.
pub fn hold(slot: u8, prn: u8, doppler: i32, half: u16) -> Option<Command> {
    Some(Command::Hold {
        slot: SlotNo::new(slot)?,
        signal: signal(prn, doppler, half)?,
    })
}

/// A track from a shift in Hz and a half chip on.
pub fn track(slot: u8, prn: u8, doppler: i32, half: u16) -> Option<Command> {
    Some(Command::Track {
        slot: SlotNo::new(slot)?,
        signal: signal(prn, doppler, half)?,
    })
}

/// A search about a shift in Hz, over so many bins to either side and periods.
pub fn acquire(
    slot: u8,
    prn: u8,
    centre: i32,
    bins: u32,
    dwell: u32,
    threshold: u32,
) -> Option<Command> {
    Some(Command::Acquire {
        slot: SlotNo::new(slot)?,
        plan: Plan::new(Prn::new(prn)?, centre, bins, dwell, threshold).ok()?,
    })
}

/// A request to show so many dumps.
pub fn counts(slot: u8, n: u32) -> Option<Command> {
    Some(Command::Counts {
        slot: SlotNo::new(slot)?,
        n,
    })
}

/// A question for the state.
pub fn state(slot: u8) -> Option<Command> {
    Some(Command::State {
        slot: SlotNo::new(slot)?,
    })
}

/// A stop of what the slot does.
pub fn stop(slot: u8) -> Option<Command> {
    Some(Command::Stop {
        slot: SlotNo::new(slot)?,
    })
}
