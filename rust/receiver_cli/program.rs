// Made by tools/rust of crates/receiver_cli/src/program.rt: change that.
//! The program, from its words to its status.

use crate::kit::std::alloc::AllocGlobal;
use crate::kit::std::eprint;
use crate::kit::std::eprintln;
use crate::kit::std::string::String;
use crate::kit::std::vec::Vec;
use crate::receiver_cli::failure::{Failure, status};
use crate::receiver_cli::outcome::Outcome;
use crate::receiver_cli::receiving::receive;
use crate::kit::clap::Error;
use crate::kit::clap::error::ErrorKind;
use crate::receiver::{Sink, Source};
use crate::receiver_options::{CommandLine, OptionFault, ScriptFiles};
use crate::kit::std::alloc::{AllocError, Global};
use crate::kit::std::io::Eprint;

/// Does what the words of the command line ask for, with these script files, reader and writer:
/// refuses an option, or runs the scripts, or leaves the help to be shown. It reports on standard
/// error what went wrong, and gives the status: 0, or 1 where the run or memory is at fault, or 2
/// where what was asked for is. On standard output it prints by the writer alone.
pub fn carry_out<T, C, S, R, W>(
    rt: &T,
    line: &C,
    files: &S,
    reader: &mut R,
    writer: &mut W,
) -> Outcome
where
    T: AllocGlobal + Eprint,
    C: CommandLine,
    S: ScriptFiles,
    R: Source,
    W: Sink,

{
    match room_for_stack(rt.alloc()) {
        Ok(()) => carry_out_in_room(rt, line, files, reader, writer),
        Err(AllocError) => tell(rt, Err(Failure::Options(OptionFault::NoMemory))),
    }
}

/// The most bytes of stack that the program takes.
const STACK_BYTES: usize = 512 << 10;

/// Whether there is as much memory as the program takes of the stack. A limit on the address space
/// holds for both, and where the stack can't grow a signal ends the program.
#[cold]
#[inline(never)]
fn room_for_stack(alloc: Global) -> Result<(), AllocError> {
    let _room: Vec<u8> = Vec::with_capacity(alloc, STACK_BYTES)?;
    Ok(())
}

/// Does what the words ask for. It has most of the stack, and takes the rest of it with the words,
/// so that the stack grows no more once there may be lines.
#[inline(never)]
fn carry_out_in_room<T, C, S, R, W>(
    rt: &T,
    line: &C,
    files: &S,
    reader: &mut R,
    writer: &mut W,
) -> Outcome
where
    T: AllocGlobal + Eprint,
    C: CommandLine,
    S: ScriptFiles,
    R: Source,
    W: Sink,

{
    let words = match line.words(rt.alloc()) {
        Ok(words) => words,
        Err(AllocError) => return tell(rt, Err(Failure::Options(OptionFault::NoMemory))),
    };
    match crate::receiver_options::matches(rt.alloc(), &words) {
        Ok(matches) => tell(rt, receive(rt.alloc(), files, &matches, reader, writer)),
        Err(error) => refuse(rt, &words, error),
    }
}

/// What comes of it where the option parser gives no options: the help is to be shown, or there is
/// the status 1 where it had no memory, or 2 where it refuses. It reports the latter two.
fn refuse<E: Eprint>(rt: &E, words: &[String], error: Error) -> Outcome {
    match error.kind() {
        ErrorKind::DisplayHelp | ErrorKind::DisplayVersion => Outcome::Help(error),
        ErrorKind::OutOfMemory => tell(rt, Err(Failure::Options(OptionFault::NoMemory))),
        _ => {
            // Where standard error fails too, only the status shows it.
            let _ = eprint!(rt; "{error}");
            hint(rt, words);
            Outcome::Status(2)
        }
    }
}

/// Reports how to give an offset below zero, where the words of a refused command line have one.
/// The parser takes it for another option.
fn hint<E: Eprint>(rt: &E, words: &[String]) {
    let mut is_offset = false;
    for word in words {
        let word = word.as_str();
        let value = if is_offset {
            Some(word)
        } else {
            word.strip_prefix("--offset=")
        };
        if let Some([b'-', b'0'..=b'9', ..]) = value.map(str::as_bytes) {
            // Where standard error fails too, only the status shows it.
            let _ = eprintln!(rt;
                "receiver: --offset takes no sign: --offset 5000 --minus is -5000 Hz"
            );
            return;
        }
        is_offset = word == "--offset";
    }
}

/// Reports what went wrong, where something did, and gives the status.
fn tell<E: Eprint>(rt: &E, ended: Result<u64, Failure>) -> Outcome {
    if let Err(failure) = ended {
        // Where standard error fails too, only the status shows it.
        let _ = eprintln!(rt; "receiver: {failure}");
    }
    Outcome::Status(status(ended))
}
