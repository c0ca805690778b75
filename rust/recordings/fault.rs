// Made by tools/rust of crates/recordings/src/fault.rt: change that.
//! Why bytes can't be packed.

use crate::kit::std::AnyDrop as Drop;
use crate::kit::std::alloc::{AllocError, AllocFailed};

/// Bytes can't be packed.
#[non_exhaustive]
#[derive(Clone, Copy, Debug, PartialEq, Eq)]
pub enum PackFault {
    /// There was no memory for what is written.
    NoMemory,
    /// A float is no number.
    NotANumber,
}

impl core::fmt::Display for PackFault {
    fn fmt(&self, f: &mut core::fmt::Formatter<'_>) -> core::fmt::Result {
        match self {
            PackFault::NoMemory => f.write_str("no memory"),
            PackFault::NotANumber => f.write_str("a float is no number"),
        }
    }
}

impl core::error::Error for PackFault {}

impl From<AllocError> for PackFault {
    fn from(_: AllocError) -> PackFault {
        PackFault::NoMemory
    }
}

impl<T: Drop> From<AllocFailed<T>> for PackFault {
    fn from(_: AllocFailed<T>) -> PackFault {
        PackFault::NoMemory
    }
}
