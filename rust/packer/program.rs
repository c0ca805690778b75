// Made by tools/rust of crates/packer/src/program.rt: change that.
//! The program, from its words to its status.

use crate::kit::std::eprintln;
use crate::kit::std::string::String;
use crate::kit::std::vec::Vec;
use crate::packer::failure::{Failure, status};
use crate::packer::measuring::measure;
use crate::packer::options;
use crate::packer::running::run;
use crate::kit::clap::error::ErrorKind;
use crate::kit::clap::{ArgMatches, Error};
use crate::devices::{Sink, Source};
use crate::recordings::Packer;
use crate::kit::std::alloc::AllocGlobal;
use crate::kit::std::env::{self, Env};
use crate::kit::std::io::{self, Eprint, Print};
use crate::kit::std::process::ExitCode;

/// Does what the words of the command line ask for, with this reader and writer, and gives the
/// status. It reports on standard error what went wrong, and which bytes at the end are left out.
pub fn carry_out<T, R, W>(rt: &T, reader: &mut R, writer: &mut W) -> ExitCode
where
    T: AllocGlobal + Env + Print + Eprint,
    R: Source,
    W: Sink,

{
    let words = match words(rt) {
        Ok(words) => words,
        Err(failure) => return tell(rt, Err(failure)),
    };
    match options::matches(rt.alloc(), &words) {
        Ok(matches) => tell(rt, pack(rt, &matches, reader, writer)),
        Err(error) => refuse(rt, &error),
    }
}

/// The words of the command line, the program's name first.
fn words<T: AllocGlobal + Env>(rt: &T) -> Result<Vec<String>, Failure> {
    let mut words = Vec::new(rt.alloc());
    let args = match env::args(rt) {
        Ok(args) => args,
        Err(error) if error.kind() == io::ErrorKind::OutOfMemory => return Err(Failure::NoMemory),
        Err(_) => return Err(Failure::Words),
    };
    for word in args {
        words.push(word)?;
    }
    Ok(words)
}

/// Packs or measures as the options ask.
fn pack<T, R, W>(
    rt: &T,
    matches: &ArgMatches,
    reader: &mut R,
    writer: &mut W,
) -> Result<(), Failure>
where
    T: AllocGlobal + Print + Eprint,
    R: Source,
    W: Sink,

{
    let recipe = options::recipe(matches)?;
    let mut stretch = options::stretch(matches, &recipe)?;
    if options::is_measured(matches) {
        return measure(rt, &recipe, &mut stretch, reader);
    }
    let mut packer = Packer::new(rt.alloc(), recipe)?;
    run(rt.alloc(), &mut packer, &mut stretch, reader, writer)?;
    tell_rest(rt, &packer);
    Ok(())
}

/// Reports what is left out at the end.
fn tell_rest<E: Eprint>(rt: &E, packer: &Packer) {
    let samples = packer.samples_held();
    // Where standard error fails, there is nowhere else to report it.
    if samples > 0 {
        let _ = eprintln!(rt;
            "pack: left out at the end: samples that don't fill a byte: {samples}"
        );
    }
    if packer.ends_inside() {
        let _ = eprintln!(rt; "pack: left out at the end: a part of a sample");
    }
}

/// Prints what the option parser says where it gives no options, and gives the status.
fn refuse<P: Print + Eprint>(rt: &P, error: &Error) -> ExitCode {
    let kind = error.kind();
    let is_printed = kind != ErrorKind::OutOfMemory && error.print(rt).is_ok();
    match kind {
        ErrorKind::OutOfMemory => report(rt, Failure::NoMemory),
        ErrorKind::DisplayHelp | ErrorKind::DisplayVersion if !is_printed => {
            report(rt, Failure::Output);
        }
        _ => {}
    }
    ExitCode::from(parser_status(kind, is_printed))
}

/// The status where the option parser gives no options: 0 where help was asked for, 1 where it had
/// no memory or the help couldn't be printed, and 2 where it refuses.
fn parser_status(kind: ErrorKind, is_printed: bool) -> u8 {
    match kind {
        ErrorKind::DisplayHelp | ErrorKind::DisplayVersion if is_printed => 0,
        ErrorKind::DisplayHelp | ErrorKind::DisplayVersion | ErrorKind::OutOfMemory => 1,
        _ => 2,
    }
}

/// Reports what went wrong, where something did, and gives the status.
fn tell<E: Eprint>(rt: &E, ended: Result<(), Failure>) -> ExitCode {
    if let Err(failure) = ended {
        report(rt, failure);
    }
    ExitCode::from(status(ended))
}

/// Reports a failure on standard error. Where that fails too, only the status shows it.
fn report<E: Eprint>(rt: &E, failure: Failure) {
    let _ = eprintln!(rt; "pack: {failure}");
}
