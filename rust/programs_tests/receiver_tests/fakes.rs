// Made by tools/rust of crates/programs_tests/src/receiver_tests/fakes.rt: change that.
//! Devices that fail where a test wants it, and count the calls on them.

use crate::kit::arrayvec::ArrayVec;
use crate::receiver::{DeviceFault, Sink, Source};

/// The most bytes that a `Holding` has room for.
const ROOM: usize = 256;

/// Gives at most so many bytes a read. It fails once, when so many are given, and would then go on.
pub struct Giving<'a> {
    bytes: &'a [u8],
    at_once: usize,
    until_fault: usize,
    pub reads: u64,
    has_failed: bool,
    was_asked_again: bool,
    gave_none: bool,
}

impl<'a> Giving<'a> {
    /// Gives at most so many bytes a read, and fails once after so many.
    pub fn new(bytes: &'a [u8], (at_once, until_fault): (usize, usize)) -> Self {
        Giving {
            bytes,
            at_once,
            until_fault,
            reads: 0,
            has_failed: false,
            was_asked_again: false,
            gave_none: false,
        }
    }
}

impl Source for Giving<'_> {
    fn read(&mut self, buffer: &mut [u8]) -> Result<usize, DeviceFault> {
        self.was_asked_again |= self.has_failed;
        self.reads = self.reads.wrapping_add(1);
        if self.until_fault == 0 {
            self.until_fault = usize::MAX;
            self.has_failed = true;
            return Err(DeviceFault);
        }
        let count = self
            .bytes
            .len()
            .min(buffer.len())
            .min(self.at_once.max(1))
            .min(self.until_fault);
        buffer[..count].copy_from_slice(&self.bytes[..count]);
        self.bytes = &self.bytes[count..];
        self.until_fault -= count;
        self.gave_none |= count == 0;
        Ok(count)
    }
}

/// Keeps what is written. It fails once, when it holds so many bytes, and would then go on; or it
/// fails at each flush.
pub struct Holding {
    bytes: ArrayVec<u8, ROOM>,
    at_once: usize,
    until_fault: usize,
    flush_fails: bool,
    pub writes: u64,
    pub flushes: u64,
    /// Whether a flush came after the last write.
    pub is_flushed: bool,
    has_failed: bool,
}

impl Holding {
    /// Takes at most so many bytes a write, and fails once after so many, or at each flush.
    pub fn new((at_once, until_fault): (usize, usize), flush_fails: bool) -> Self {
        Holding {
            bytes: ArrayVec::new(),
            at_once,
            until_fault,
            flush_fails,
            writes: 0,
            flushes: 0,
            is_flushed: false,
            has_failed: false,
        }
    }

    /// What was written.
    pub fn bytes(&self) -> &[u8] {
        self.bytes.as_slice()
    }
}

impl Sink for Holding {
    fn write(&mut self, bytes: &[u8]) -> Result<usize, DeviceFault> {
        self.writes = self.writes.wrapping_add(1);
        self.is_flushed = false;
        let count = bytes.len().min(self.at_once.max(1)).min(self.until_fault);
        let is_taken = count > 0 && self.bytes.try_extend_from_slice(&bytes[..count]).is_ok();
        if !is_taken && !bytes.is_empty() {
            self.until_fault = usize::MAX;
            self.has_failed = true;
            return Err(DeviceFault);
        }
        self.until_fault -= count;
        Ok(count)
    }

    fn flush(&mut self) -> Result<(), DeviceFault> {
        self.flushes = self.flushes.wrapping_add(1);
        if self.flush_fails {
            self.has_failed = true;
            return Err(DeviceFault);
        }
        self.is_flushed = true;
        Ok(())
    }
}
