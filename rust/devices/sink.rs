// Made by tools/rust of crates/devices/src/sink.rt: change that.
//! What takes bytes.

use crate::devices::fault::DeviceFault;

/// What takes bytes.
pub trait Sink {
    /// Takes some of the bytes, at least one where there are any, and answers how many.
    fn write(&mut self, bytes: &[u8]) -> Result<usize, DeviceFault>;

    /// Passes on what the sink holds back.
    fn flush(&mut self) -> Result<(), DeviceFault>;
}
