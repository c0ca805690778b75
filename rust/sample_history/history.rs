// Made by tools/rust of crates/sample_history/src/history.rt: change that.
//! The last samples of a stream.

use crate::sample_history::ring_bytes::{copy_out, grow};
use crate::kit::circular_buffer::HeapCircularBuffer;
use crate::sample_planes::{
    Format, MAX_SAMPLES, MOST_TIME, NEAR_BYTES, PackedSamples, Planes, SampleSource,
};
use crate::kit::std::alloc::{AllocError, Global};

/// The last samples of a stream, packed. The earliest sample of a byte stands in its top bits.
pub struct SampleHistory {
    format: Format,
    /// The last whole bytes of the stream.
    whole: HeapCircularBuffer<u8>,
    /// The samples after those of the whole bytes, fewer than a byte holds.
    partial: u8,
    taken: u64,
}

impl SampleHistory {
    /// The history of a stream that hasn't begun. It takes its memory at once, and will hold at
    /// least the last `room` samples. An error is memory that it was refused.
    pub fn open(alloc: Global, format: Format, room: usize) -> Result<SampleHistory, AllocError> {
        let whole = HeapCircularBuffer::with_capacity(alloc, room.div_ceil(format.per_byte()) + 1)?;
        Ok(SampleHistory {
            format,
            whole,
            partial: 0,
            taken: 0,
        })
    }

    /// How the samples are packed.
    pub fn format(&self) -> Format {
        self.format
    }

    /// Takes the next samples of the stream, at most `MAX_SAMPLES`, in the history's packing.
    pub fn take(&mut self, run: &PackedSamples) {
        debug_assert!(run.format() == self.format);
        debug_assert!(run.len() <= MAX_SAMPLES);
        debug_assert!(self.taken <= MOST_TIME - run.len() as u64);
        let (bytes, first) = run.place();
        self.take_bytes(bytes, first, run.len());
    }

    /// Takes the `len` samples of `bytes` from sample `first` of the first byte on, as `take` does.
    fn take_bytes(&mut self, bytes: &[u8], first: usize, len: usize) {
        let per_byte = self.format.per_byte();
        let width = 8 / per_byte;
        let filled = (self.taken % per_byte as u64) as usize;
        self.partial = grow(
            &mut self.whole,
            self.partial,
            width * filled,
            bytes,
            width * first,
            (filled + len) / per_byte,
        );
        self.taken += len as u64;
    }

    /// Puts `count` of its bytes, from byte `from` of the ring on, at the start of `near`. The byte
    /// that isn't full comes after those of the ring.
    fn put_bytes(&self, from: usize, count: usize, near: &mut [u8]) {
        let inside = count.min(self.whole.len() - from);
        copy_out(&self.whole, from, &mut near[..inside]);
        if inside < count {
            near[inside] = self.partial;
        }
    }
}

impl SampleSource for SampleHistory {
    fn first(&self) -> u64 {
        let per_byte = self.format.per_byte() as u64;
        (self.taken / per_byte - self.whole.len() as u64) * per_byte
    }

    fn end(&self) -> u64 {
        self.taken
    }

    fn unpack_into(&self, n: u64, len: usize, near: &mut [u8; NEAR_BYTES], planes: &mut Planes) {
        let per_byte = self.format.per_byte();
        let width = 8 / per_byte;
        let place = (n - self.first()) as usize;
        let start = place % per_byte;
        let count = (width * (start + len) + 7) / 8;
        self.put_bytes(place / per_byte, count, near);
        planes.fill(self.format, near, start, len);
    }
}
