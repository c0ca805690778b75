// Made by tools/rust of crates/sample_planes/src/packed.rt: change that.
//! A run of samples as they lie in bytes.

use crate::sample_planes::format::Format;
use crate::sample_planes::planes::{MAX_SAMPLES, Planes, unpack};

/// A run of samples, packed into bytes. Clauses see it as the list of its samples and their
/// packing, wherever in a byte they begin.
#[derive(Debug)]
pub struct PackedSamples<'a> {
    format: Format,
    /// The bytes that the samples lie in, and perhaps more bytes after these.
    bytes: &'a [u8],
    /// The place of the first sample in the first byte.
    first: usize,
    len: usize,
}

impl<'a> PackedSamples<'a> {
    /// All samples of `bytes`. There are fewer than 2^64 of them.
    ///
    /// # Panics
    ///
    /// Plain Rust panics where they are 2^64 samples or more.
    #[must_use]
    pub fn new(format: Format, bytes: &'a [u8]) -> PackedSamples<'a> {
        let per_byte = format.per_byte();
        assert!(
            (bytes.len() as u128) * (per_byte as u128) < (1 << 64),
            "PackedSamples::new requires fewer than 2^64 samples"
        );
        PackedSamples::from_byte(format, bytes, 0, bytes.len() * per_byte)
    }

    /// The `len` samples of `bytes` from sample `first` on. The bytes before it are passed over,
    /// so that a run that is split again and again is counted from its own first byte.
    fn from_byte(format: Format, bytes: &'a [u8], first: usize, len: usize) -> PackedSamples<'a> {
        let per_byte = format.per_byte();
        PackedSamples {
            format,
            bytes: &bytes[first / per_byte..],
            first: first % per_byte,
            len,
        }
    }

    /// How the samples are packed.
    #[must_use]
    pub fn format(&self) -> Format {
        self.format
    }

    /// How many samples there are.
    #[must_use]
    pub fn len(&self) -> usize {
        self.len
    }

    /// Whether there is no sample.
    #[must_use]
    pub fn is_empty(&self) -> bool {
        self.len() == 0
    }

    /// The bytes that the samples lie in, and perhaps more bytes after these; and the place of the
    /// first sample in the first byte, counted from 0.
    #[must_use]
    pub fn place(&self) -> (&'a [u8], usize) {
        (self.bytes, self.first)
    }

    /// The first `n` samples, and those after them. There are at least `n`.
    ///
    /// # Panics
    ///
    /// Plain Rust panics where there are fewer than `n`.
    #[inline]
    #[must_use]
    pub fn split_at(&self, n: usize) -> (PackedSamples<'a>, PackedSamples<'a>) {
        assert!(
            n <= self.len(),
            "PackedSamples::split_at requires n <= len()"
        );
        let behind = self.first + n;
        let front = PackedSamples::from_byte(self.format, self.bytes, self.first, n);
        let back = PackedSamples::from_byte(self.format, self.bytes, behind, self.len - n);
        (front, back)
    }

    /// The `len` samples from sample `first` of them on, which is counted from 0. There are at
    /// least `first + len`.
    ///
    /// # Panics
    ///
    /// Plain Rust panics where there are fewer than `first + len`.
    #[inline]
    #[must_use]
    pub fn part(&self, first: usize, len: usize) -> PackedSamples<'a> {
        assert!(
            first <= self.len() && len <= self.len() - first,
            "PackedSamples::part requires first + len <= len()"
        );
        self.split_at(first).1.split_at(len).0
    }

    /// Unpacks them all, at most `MAX_SAMPLES`.
    ///
    /// # Panics
    ///
    /// Plain Rust panics where there are more than `MAX_SAMPLES`.
    #[must_use]
    pub fn unpack(&self) -> Planes {
        assert!(
            self.len() <= MAX_SAMPLES,
            "PackedSamples::unpack requires len() <= MAX_SAMPLES"
        );
        unpack(self.format, self.bytes, self.first, self.len)
    }

    /// Unpacks them all, at most `MAX_SAMPLES`, into planes that are kept: whatever these held
    /// before, they hold just the samples, and nothing of their size is moved.
    ///
    /// # Panics
    ///
    /// Plain Rust panics where there are more than `MAX_SAMPLES`.
    pub fn unpack_into(&self, planes: &mut Planes) {
        assert!(
            self.len() <= MAX_SAMPLES,
            "PackedSamples::unpack_into requires len() <= MAX_SAMPLES"
        );
        planes.fill(self.format, self.bytes, self.first, self.len);
    }
}
