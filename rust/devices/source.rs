// Made by tools/rust of crates/devices/src/source.rt: change that.
//! What gives bytes.

use crate::devices::fault::DeviceFault;

/// What gives bytes.
pub trait Source {
    /// Reads some bytes into the front of the buffer, which has room for one, and answers how many:
    /// 0 only at the end.
    fn read(&mut self, buffer: &mut [u8]) -> Result<usize, DeviceFault>;
}
