// Made by tools/rust of crates/receiver_options/src/fault.rt: change that.
//! Why shares or scripts can't be had.

use crate::kit::std::AnyDrop as Drop;
use crate::kit::std::alloc::{AllocError, AllocFailed};

/// Why the shares of the slots or the scripts that a command line asks for can't be had.
#[non_exhaustive]
#[derive(Clone, Copy, Debug, PartialEq, Eq)]
pub enum OptionFault {
    /// There was no memory for the shares or a script.
    NoMemory,
    /// The shares of the slots aren't a digit from 1 to 8 for each script.
    Shares,
    /// A script couldn't be read, or is longer than 16 MiB.
    Script,
}

impl core::fmt::Display for OptionFault {
    fn fmt(&self, f: &mut core::fmt::Formatter<'_>) -> core::fmt::Result {
        match self {
            OptionFault::NoMemory => f.write_str("no memory"),
            OptionFault::Shares => f.write_str("shares"),
            OptionFault::Script => f.write_str("script"),
        }
    }
}

impl core::error::Error for OptionFault {}

impl From<AllocError> for OptionFault {
    fn from(_: AllocError) -> OptionFault {
        OptionFault::NoMemory
    }
}

impl<T: Drop> From<AllocFailed<T>> for OptionFault {
    fn from(_: AllocFailed<T>) -> OptionFault {
        OptionFault::NoMemory
    }
}
