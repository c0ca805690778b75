// Made by tools/rust of crates/seldomplough/src/packing_fault.rt: change that.
//! Why values aren't packed.

use crate::kit::std::AnyDrop as Drop;
use crate::recordings::PackFault;
use crate::kit::std::alloc::{AllocError, AllocFailed};

/// Values aren't packed.
#[non_exhaustive]
#[derive(Clone, Copy, Debug, PartialEq, Eq)]
pub enum PackingFault {
    /// There was no memory for what is packed.
    NoMemory,
    /// A float is no number.
    NotANumber,
    /// The recording has values of another kind.
    OtherKind,
}

impl core::fmt::Display for PackingFault {
    fn fmt(&self, f: &mut core::fmt::Formatter<'_>) -> core::fmt::Result {
        match self {
            PackingFault::NoMemory => f.write_str("no memory"),
            PackingFault::NotANumber => f.write_str("a float is no number"),
            PackingFault::OtherKind => f.write_str("the recording has values of another kind"),
        }
    }
}

impl core::error::Error for PackingFault {}

impl From<PackFault> for PackingFault {
    fn from(fault: PackFault) -> PackingFault {
        match fault {
            PackFault::NoMemory => PackingFault::NoMemory,
            PackFault::NotANumber => PackingFault::NotANumber,
        }
    }
}

impl From<AllocError> for PackingFault {
    fn from(_: AllocError) -> PackingFault {
        PackingFault::NoMemory
    }
}

impl<T: Drop> From<AllocFailed<T>> for PackingFault {
    fn from(_: AllocFailed<T>) -> PackingFault {
        PackingFault::NoMemory
    }
}
