// Made by tools/rust of crates/packer/src/running.rt: change that.
//! A recording through the packer, from a reader to a writer.

use crate::kit::std::vec::Vec;
use crate::kit::std::vec_ as vec;
use crate::packer::failure::Failure;
use crate::devices::{DeviceFault, Sink, Source};
use crate::recordings::{MOST_PIECE, Packer, Stretch};
use crate::kit::std::alloc::{AllocError, Global};

/// Packs the stretch of a recording that is wanted, piece by piece as reads give it. However they
/// cut it, what is written is the packing of that stretch, or after a failure a front of it.
pub fn run<R: Source, W: Sink>(
    alloc: Global,
    packer: &mut Packer,
    stretch: &mut Stretch,
    reader: &mut R,
    writer: &mut W,
) -> Result<(), Failure> {
    let mut buffer = zeros(alloc, MOST_PIECE)?;
    let mut written = Vec::with_capacity(alloc, MOST_PIECE)?;
    loop {
        let goes_on = step(packer, stretch, reader, writer, &mut buffer, &mut written)?;
        if !goes_on {
            return flush(writer);
        }
    }
}

/// Passes on what the writer may hold back.
fn flush<W: Sink>(writer: &mut W) -> Result<(), Failure> {
    match writer.flush() {
        Ok(()) => Ok(()),
        Err(_) => Err(Failure::Output),
    }
}

/// Packs one more piece, and answers whether there may be another.
fn step<R: Source, W: Sink>(
    packer: &mut Packer,
    stretch: &mut Stretch,
    reader: &mut R,
    writer: &mut W,
    buffer: &mut [u8],
    written: &mut Vec<u8>,
) -> Result<bool, Failure> {
    if stretch.is_over() {
        return Ok(false);
    }
    let count = read(reader, buffer)?;
    if count == 0 {
        return Ok(false);
    }
    packer.take(stretch.part(&buffer[..count]), written)?;
    match write_all(writer, written) {
        Ok(()) => Ok(true),
        Err(_) => Err(Failure::Output),
    }
}

/// Writes all of the bytes, by as many writes as it takes. After an error some of them may be
/// written, from the first on.
fn write_all<W: Sink>(writer: &mut W, bytes: &[u8]) -> Result<(), DeviceFault> {
    let mut sent = 0;
    while sent < bytes.len() {
        sent += writer.write(&bytes[sent..])?;
    }
    Ok(())
}

/// Reads some bytes, and answers how many: 0 only at the end.
pub fn read<R: Source>(reader: &mut R, buffer: &mut [u8]) -> Result<usize, Failure> {
    match reader.read(buffer) {
        Ok(count) => Ok(count),
        Err(_) => Err(Failure::Input),
    }
}

/// A list of so many bytes, each 0.
pub fn zeros(alloc: Global, count: usize) -> Result<Vec<u8>, AllocError> {
    vec![in alloc; 0u8; count]
}
