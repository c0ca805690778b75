// Made by tools/rust of crates/receiver_options/src/script_files.rt: change that.
//! Script files, read whole.

use crate::kit::std::AnyDrop as Drop;
use crate::kit::std::vec::Vec;
use crate::receiver_options::fault::OptionFault;
use crate::kit::std::alloc::Global;
use crate::kit::std::fs::{File, Files};
use crate::kit::std::io::{ErrorKind, Read};

/// The most bytes of a script file: 16 MiB.
pub const MOST_SCRIPT_BYTES: usize = 16 << 20;

/// What keeps script files.
pub trait ScriptFiles {
    /// Reads a file whole, of 16 MiB at most.
    fn read(&self, alloc: Global, path: &str) -> Result<Vec<u8>, OptionFault>;
}

/// The files of a file system. No contract knows their bytes.
#[derive(Clone, Copy)]
pub struct Stored<'a, F> {
    files: &'a F,
}

impl<'a, F> Stored<'a, F> {
    /// The script files in some files of a system.
    pub fn new(files: &'a F) -> Self {
        Stored { files }
    }
}

impl<F: Files> ScriptFiles for Stored<'_, F> {
    fn read(&self, alloc: Global, path: &str) -> Result<Vec<u8>, OptionFault> {
        match File::open(self.files, path) {
            Ok(file) => script_from(alloc, file),
            Err(_) => Err(OptionFault::Script),
        }
    }
}

/// The bytes of a script that a reader gives: all of them, or `Script` where it fails or gives more
/// than 16 MiB.
pub fn script_from<R: Read + Drop>(alloc: Global, reader: R) -> Result<Vec<u8>, OptionFault> {
    let mut bytes = Vec::new(alloc);
    // One byte more than the most shows that there are too many.
    match reader
        .take(MOST_SCRIPT_BYTES as u64 + 1)
        .read_to_end(&mut bytes) {
        Ok(_) if bytes.len() <= MOST_SCRIPT_BYTES => Ok(bytes),
        Err(error) if error.kind() == ErrorKind::OutOfMemory => Err(OptionFault::NoMemory),
        _ => Err(OptionFault::Script),
    }
}

/// The texts of script files, in their order.
pub fn read_scripts<S: ScriptFiles>(
    alloc: Global,
    files: &S,
    paths: &[&str],
) -> Result<Vec<Vec<u8>>, OptionFault> {
    let mut texts = Vec::new(alloc);
    for path in paths {
        texts.push(files.read(alloc, path)?)?;
    }
    Ok(texts)
}
