// Made by tools/rust of crates/devices/src/flags.rt: change that.
//! What is reported of the calls on a device of std.

use crate::devices::fault::DeviceFault;
use crate::kit::std::io::{self, ErrorKind};

/// What the calls on a device have shown so far. An answer alone changes it, by `report`.
#[derive(Clone, Copy, Debug, PartialEq, Eq)]
pub struct Flags {
    has_failed: bool,
    was_asked_again: bool,
}

impl Flags {
    /// What is known of a device on which no call was made.
    pub(crate) fn without_calls() -> Flags {
        Flags {
            has_failed: false,
            was_asked_again: false,
        }
    }
}

/// What is reported of the answer of one more call on a device, and what its calls have shown then.
/// An error of std is the fault, and any other answer is reported as it is, and blames nothing.
pub(crate) fn report<N>(answer: io::Result<N>, flags: Flags) -> (Result<N, DeviceFault>, Flags) {
    let after = Flags {
        has_failed: flags.has_failed || answer.is_err(),
        was_asked_again: flags.was_asked_again || flags.has_failed,
    };
    (answer.map_err(|_| DeviceFault), after)
}

/// What a write answered, where one of some bytes that took none is an error. One of no bytes fails
/// nothing.
pub(crate) fn of_write(answer: io::Result<usize>, bytes: &[u8]) -> io::Result<usize> {
    match answer {
        Ok(0) if !bytes.is_empty() => Err(io::Error::from(ErrorKind::WriteZero)),
        _ => answer,
    }
}
