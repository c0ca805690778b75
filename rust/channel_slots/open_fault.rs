// Made by tools/rust of crates/channel_slots/src/open_fault.rt: change that.
//! Why a bank may not open.

use crate::kit::std::alloc::AllocError;

/// Why no bank was opened. The number of clients is checked first, then their shares.
#[non_exhaustive]
#[derive(Clone, Copy, Debug, PartialEq, Eq)]
pub enum OpenFault {
    /// There was no memory for the slots.
    NoMemory,
    /// The number of clients is outside 1 to 8.
    Clients,
    /// A client's share of the slots is outside 1 to 8.
    Share,
}

impl core::fmt::Display for OpenFault {
    fn fmt(&self, f: &mut core::fmt::Formatter<'_>) -> core::fmt::Result {
        match self {
            OpenFault::NoMemory => f.write_str("no memory"),
            OpenFault::Clients => f.write_str("there are from 1 to 8 clients"),
            OpenFault::Share => f.write_str("a client's share is from 1 to 8 slots"),
        }
    }
}

impl core::error::Error for OpenFault {}

impl From<AllocError> for OpenFault {
    fn from(_: AllocError) -> OpenFault {
        OpenFault::NoMemory
    }
}
