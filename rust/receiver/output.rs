// Made by tools/rust of crates/receiver/src/output.rt: change that.
//! A writer with the text that is held back for it, until the buffer is full or a run is about to
//! wait.

use crate::kit::arrayvec::ArrayVec;
use crate::devices::{DeviceFault, Sink};

/// The most bytes that are held back.
pub const MOST_HELD: usize = 16_384;

/// A writer with the text that is held back for it.
pub struct Output<'a, W> {
    writer: &'a mut W,
    bytes: ArrayVec<u8, MOST_HELD>,
    /// How many of the bytes the writer has taken already.
    sent: usize,
}

impl<'a, W: Sink> Output<'a, W> {
    /// An output that holds nothing back.
    pub fn new(writer: &'a mut W) -> Self {
        Output {
            writer,
            bytes: ArrayVec::new(),
            sent: 0,
        }
    }

    /// Holds a line back, and first writes what there was where there is no room for the line.
    pub fn put(&mut self, line: &[u8]) -> Result<(), DeviceFault> {
        if self.bytes.remaining_capacity() < line.len() {
            self.send()?;
        }
        let _fits = self.bytes.try_extend_from_slice(line);
        Ok(())
    }

    /// Writes all that is held back, by as many writes as it takes. No failed write is tried again.
    pub fn send(&mut self) -> Result<(), DeviceFault> {
        while self.sent < self.bytes.len() {
            let count = self.writer.write(&self.bytes[self.sent..])?;
            self.sent += count;
        }
        self.bytes.clear();
        self.sent = 0;
        Ok(())
    }

    /// Writes all that is held back, and flushes.
    pub fn finish(&mut self) -> Result<(), DeviceFault> {
        self.send()?;
        self.writer.flush()
    }
}
