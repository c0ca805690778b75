// Made by tools/rust of crates/packer/src/failure.rt: change that.
//! Why the program ends early, and with which status.

use crate::kit::std::AnyDrop as Drop;
use crate::recordings::{ChoiceFault, PackFault};
use crate::kit::std::alloc::{AllocError, AllocFailed};

/// Why the program ends early, but for a command line that the option parser refuses.
#[non_exhaustive]
#[derive(Clone, Copy, Debug, PartialEq, Eq)]
pub enum Failure {
    /// There was no memory.
    NoMemory,
    /// Standard input couldn't be read.
    Input,
    /// Standard input has a float that is no number.
    NotANumber,
    /// Standard output couldn't be written.
    Output,
    /// A word of the command line isn't text.
    Words,
    /// No packing was given.
    NoFormat,
    /// An option says how to pack, and measuring packs nothing.
    NotPacked(&'static str),
    /// The packing has sizes, and no threshold was given.
    NoThreshold,
    /// Standard input has a float that is infinite, so that it has no mean.
    Infinite,
    /// There is no sample to measure.
    Nothing,
    /// A centre or a threshold isn't a number of halves, or is out of range.
    Number(&'static str),
    /// A threshold of floats isn't a float of at least 0, or is infinite.
    Float,
    /// Floats have the centre 0.
    Centre,
    /// A number of samples is too great, or isn't one of whole bytes.
    Samples(&'static str),
    /// What is asked for can't be had of the recording.
    Choice(ChoiceFault),
}

impl core::fmt::Display for Failure {
    fn fmt(&self, f: &mut core::fmt::Formatter<'_>) -> core::fmt::Result {
        match self {
            Failure::NoMemory => f.write_str("no memory"),
            Failure::Input => f.write_str("standard input couldn't be read"),
            Failure::NotANumber => f.write_str("standard input has a float that is no number"),
            Failure::Output => f.write_str("standard output couldn't be written"),
            Failure::Words => f.write_str("a word of the command line isn't UTF-8"),
            Failure::NoFormat => f.write_str("--to: it is missing, and so is --measure"),
            Failure::NotPacked(value) => write!(f, "--{0}: --measure packs nothing", value),
            Failure::NoThreshold => f.write_str("--to: two bits a part need --threshold; --measure suggests one"),
            Failure::Infinite => f.write_str("standard input has a float that is infinite"),
            Failure::Nothing => f.write_str("standard input has no whole sample"),
            Failure::Number(value) => write!(f, "--{0}: it takes N or N.5, at most 1000000.5", value),
            Failure::Float => f.write_str("--threshold: of floats it takes a number from 0 to 3.4e38"),
            Failure::Centre => f.write_str("--centre: floats have the centre 0"),
            Failure::Samples(value) => write!(f, "--{0}: it takes whole bytes of samples, at most 2^40 samples", value),
            Failure::Choice(value) => write!(f, "--from: {0}", value),
        }
    }
}

impl core::error::Error for Failure {}

/// The status of the program: 0, or 1 where a device, its bytes or memory are at fault, or 2 where
/// the options are.
pub fn status(ended: Result<(), Failure>) -> u8 {
    match ended {
        Ok(()) => 0,
        Err(Failure::NoMemory | Failure::Input | Failure::Output) => 1,
        Err(Failure::NotANumber | Failure::Infinite | Failure::Nothing) => 1,
        Err(_) => 2,
    }
}

impl From<AllocError> for Failure {
    fn from(_: AllocError) -> Failure {
        Failure::NoMemory
    }
}

impl<T: Drop> From<AllocFailed<T>> for Failure {
    fn from(_: AllocFailed<T>) -> Failure {
        Failure::NoMemory
    }
}

impl From<PackFault> for Failure {
    fn from(fault: PackFault) -> Failure {
        match fault {
            PackFault::NoMemory => Failure::NoMemory,
            PackFault::NotANumber => Failure::NotANumber,
        }
    }
}
