// Made by tools/rust of crates/devices/src/plain.rt: change that.
//! The readers and the writers of std.

use crate::devices::fault::DeviceFault;
use crate::devices::flags::{Flags, of_write, report};
use crate::devices::sink::Sink;
use crate::devices::source::Source;
use crate::kit::std::io::{Read, Write};

/// A reader or a writer of std, each call of which is one call of it. No error is tried again.
pub struct Plain<T> {
    /// The reader or the writer.
    pub inner: T,
    flags: Flags,
    gave_none: bool,
}

impl<T> Plain<T> {
    /// A device of std, on which no call has failed yet.
    pub fn new(inner: T) -> Self {
        Plain {
            inner,
            flags: Flags::without_calls(),
            gave_none: false,
        }
    }
}

impl<R: Read> Source for Plain<R> {
    fn read(&mut self, buffer: &mut [u8]) -> Result<usize, DeviceFault> {
        let (answer, flags) = report(self.inner.read(buffer), self.flags);
        self.flags = flags;
        self.gave_none |= answer == Ok(0);
        answer
    }
}

impl<W: Write> Sink for Plain<W> {
    fn write(&mut self, bytes: &[u8]) -> Result<usize, DeviceFault> {
        let answer = of_write(self.inner.write(bytes), bytes);
        let (answer, flags) = report(answer, self.flags);
        self.flags = flags;
        answer
    }

    fn flush(&mut self) -> Result<(), DeviceFault> {
        let (answer, flags) = report(self.inner.flush(), self.flags);
        self.flags = flags;
        answer
    }
}
