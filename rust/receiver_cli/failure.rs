// Made by tools/rust of crates/receiver_cli/src/failure.rt: change that.
//! Why the program ends early, and with which status.

use crate::kit::std::AnyDrop as Drop;
use crate::oscillators::SettingsFault;
use crate::receiver::RunFault;
use crate::receiver_options::OptionFault;
use crate::kit::std::alloc::{AllocError, AllocFailed};
use crate::kit::std::fmt::{self, Display, Formatter};

/// Why the program ends early, but for a command line that isn't understood.
#[derive(Clone, Copy, Debug, PartialEq, Eq)]
pub enum Failure {
    /// The command line, the shares or the scripts that it asks for can't be had.
    Options(OptionFault),
    /// The settings of the recording are refused.
    Settings(SettingsFault),
    /// The run ended early.
    Run(RunFault),
}

impl Display for Failure {
    /// The word that the program prints for it on standard error.
    fn fmt(&self, f: &mut Formatter) -> fmt::Result {
        let word = match self {
            Failure::Options(fault) => return write!(f, "{fault}"),
            Failure::Settings(SettingsFault::Rate) => "rate",
            Failure::Settings(SettingsFault::Offset) => "offset",
            Failure::Run(RunFault::NoMemory) => "no memory",
            Failure::Run(RunFault::Clients) => "clients",
            Failure::Run(RunFault::Share) => "share",
            Failure::Run(RunFault::Read) => "read",
            Failure::Run(RunFault::Write) => "write",
            Failure::Run(RunFault::TooLong) => "too long",
        };
        f.write_str(word)
    }
}

/// The status of the program: 0 after a run that came to its end, 2 where what was asked for is at
/// fault, and 1 where the run or memory is.
pub fn status(ended: Result<u64, Failure>) -> u8 {
    match ended {
        Ok(_) => 0,
        Err(Failure::Options(OptionFault::NoMemory) | Failure::Run(_)) => 1,
        Err(Failure::Options(_) | Failure::Settings(_)) => 2,
    }
}

impl From<AllocError> for Failure {
    fn from(_: AllocError) -> Failure {
        Failure::Options(OptionFault::NoMemory)
    }
}

impl<T: Drop> From<AllocFailed<T>> for Failure {
    fn from(_: AllocFailed<T>) -> Failure {
        Failure::Options(OptionFault::NoMemory)
    }
}

impl From<OptionFault> for Failure {
    fn from(fault: OptionFault) -> Failure {
        Failure::Options(fault)
    }
}
