// Made by tools/rust of crates/receiver_options/src/words.rt: change that.
//! The words of the command line, as text.

use crate::kit::std::string::String;
use crate::kit::std::vec::Vec;
use crate::kit::std::alloc::{AllocError, Global};
use crate::kit::std::env::{Env, FillError};
use crate::kit::std::str::from_utf8;

/// Room for a word, of which Linux takes less than 128 KiB. It is on the stack, and more than all
/// that comes later takes of it. So the stack has grown for good when the words are read, and no
/// later call is ended by a limit on the address space.
const WORD_ROOM: usize = 224 << 10;

/// What gives the words of a command line.
pub trait CommandLine {
    /// The words, the program's name first.
    fn words(&self, alloc: Global) -> Result<Vec<String>, AllocError>;
}

/// The command line that a system has for the program. No contract knows its words.
#[derive(Clone, Copy)]
pub struct SystemCommandLine<'a, E> {
    env: &'a E,
}

impl<'a, E> SystemCommandLine<'a, E> {
    /// The command line in the environment of a system.
    pub fn new(env: &'a E) -> Self {
        SystemCommandLine { env }
    }
}

impl<E: Env> CommandLine for SystemCommandLine<'_, E> {
    #[inline(never)]
    fn words(&self, alloc: Global) -> Result<Vec<String>, AllocError> {
        let mut buffer = [0; WORD_ROOM];
        let mut words = Vec::new(alloc);
        for i in 0..usize::MAX {
            match self.env.arg(i, &mut buffer) {
                Ok(len) => words.push(word(alloc, &buffer[..len])?)?,
                Err(FillError::NotPresent) => break,
                Err(FillError::TooLong) => return Err(AllocError),
            }
        }
        Ok(words)
    }
}

/// A word as text. One that isn't UTF-8 gets U+FFFD for what isn't, so that it is no option's
/// value, and a slash at its end, so that no file has it as its name.
fn word(alloc: Global, bytes: &[u8]) -> Result<String, AllocError> {
    let mut word = String::from_utf8_lossy(alloc, bytes)?;
    if from_utf8(bytes).is_err() {
        word.push('/')?;
    }
    Ok(word)
}
