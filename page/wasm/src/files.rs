//! The recording and the printed lines, as devices.

use crate::border;
use seldomplough::internals::receiver::{DeviceFault, Sink, Source};

/// The bytes of the recording, as they are.
pub struct Recording;

impl Source for Recording {
    fn read(&mut self, buffer: &mut [u8]) -> Result<usize, DeviceFault> {
        border::read_into(buffer).ok_or(DeviceFault)
    }
}

/// What takes the printed lines.
pub struct Lines;

impl Sink for Lines {
    fn write(&mut self, bytes: &[u8]) -> Result<usize, DeviceFault> {
        border::write_from(bytes).ok_or(DeviceFault)
    }

    fn flush(&mut self) -> Result<(), DeviceFault> {
        Ok(())
    }
}
