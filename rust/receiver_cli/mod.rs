// Made by tools/rust of crates/receiver_cli/src/main.rt: change that.
//! The program `receiver`: scripts of timed commands in, lines of what the channels report out.
//! `carry_out` takes the words of the command line, has the option parser read them, reads the
//! script files that they name, and runs them, in their order, over a reader and a writer. It
//! reports on standard error what went wrong, and gives the status, or the help to be shown. It has
//! no right to print on standard output but by its writer. `main` hands it the standard devices,
//! and shows the help. The crate `receiver` has the run.
//!
//! `carry_out` is proved to end in one of three ways: without memory for the words, without
//! options, or with what the run for the options answered. In the first two nothing is read or
//! written. Which of them comes for which words follows from the command line that the specs
//! define, by the option parser's own definitions.
//!
//! The stored run ends with status 0: two scripts over the beginning of a recording.

use crate::kit::std::HostRuntime;
use crate::kit::std::eprintln;

mod failure;
mod outcome;
mod program;
mod receiving;

use crate::receiver_cli::failure::Failure;
use crate::receiver_cli::outcome::Outcome;
use crate::receiver_cli::program::carry_out;
use crate::kit::clap::Error;
use crate::receiver::{Plain, RunFault};
use crate::receiver_options::{Stored, SystemCommandLine};
use crate::kit::std::io::{self, Eprint, Print};
use crate::kit::std::process::ExitCode;

#[must_use]
pub fn main() -> ExitCode {
    let rt = HostRuntime;
    let (mut reader, mut writer) = (Plain::new(rt.reader()), Plain::new(io::writer(&rt)));
    let (line, files) = (SystemCommandLine::new(&rt), Stored::new(&rt));
    match carry_out(&rt, &line, &files, &mut reader, &mut writer) {
        Outcome::Status(status) => ExitCode::from(status),
        Outcome::Help(help) => show(&rt, &help),
    }
}

/// Shows the help or the version, and gives the status: 0, or 1 where it can't be printed.
fn show<P: Print + Eprint>(rt: &P, help: &Error) -> ExitCode {
    match help.print(rt) {
        Ok(()) => ExitCode::from(0),
        Err(_) => {
            // Where standard error fails too, only the status shows it.
            let _ = eprintln!(rt; "receiver: {}", Failure::Run(RunFault::Write));
            ExitCode::from(1)
        }
    }
}
