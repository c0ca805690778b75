// Made by tools/rust of crates/receiver/src/faults.rt: change that.
//! How a run ends.

use crate::channel_slots::OpenFault;

/// Why a run ended early, and what is written then.
#[non_exhaustive]
#[derive(Clone, Copy, Debug, PartialEq, Eq)]
pub enum RunFault {
    /// There was no memory for the slots: nothing was read or written.
    NoMemory,
    /// There is no script, or more than eight: nothing was read or written.
    Clients,
    /// There are more or fewer shares than scripts, or a share is outside 1 to 8: nothing was read
    /// or written.
    Share,
    /// A read failed: the lines up to there are written, without the ends.
    Read,
    /// A write or a flush failed: a front of the lines is written.
    Write,
    /// More samples than the limit came: the lines up to the limit are written, without the ends.
    TooLong,
}

impl core::fmt::Display for RunFault {
    fn fmt(&self, f: &mut core::fmt::Formatter<'_>) -> core::fmt::Result {
        match self {
            RunFault::NoMemory => f.write_str("no memory"),
            RunFault::Clients => f.write_str("there are from 1 to 8 scripts"),
            RunFault::Share => f.write_str("each script has a share from 1 to 8 slots"),
            RunFault::Read => f.write_str("the samples couldn't be read"),
            RunFault::Write => f.write_str("the lines couldn't be written"),
            RunFault::TooLong => f.write_str("there are more samples than the limit"),
        }
    }
}

impl core::error::Error for RunFault {}

/// Why reading stopped.
#[derive(Clone, Copy, Debug, PartialEq, Eq)]
pub enum Stop {
    /// A read gave 0 bytes.
    AtEnd,
    /// A read failed.
    ReadFailed,
    /// More samples than the limit came.
    PastLimit,
}

impl From<OpenFault> for RunFault {
    fn from(fault: OpenFault) -> RunFault {
        match fault {
            OpenFault::NoMemory => RunFault::NoMemory,
            OpenFault::Clients => RunFault::Clients,
            OpenFault::Share => RunFault::Share,
        }
    }
}
