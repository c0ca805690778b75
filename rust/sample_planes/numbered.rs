// Made by tools/rust of crates/sample_planes/src/numbered.rt: change that.
//! A run of packed samples by their numbers in a recording.

use crate::sample_planes::layout::NEAR_BYTES;
use crate::sample_planes::packed::PackedSamples;
use crate::sample_planes::planes::Planes;
use crate::sample_planes::source::SampleSource;

/// A run of packed samples, numbered from one of the recording's samples on. Clauses see them as a
/// list, with the number of the first.
#[derive(Debug)]
pub struct NumberedSamples<'a> {
    samples: PackedSamples<'a>,
    first: u64,
}

impl<'a> NumberedSamples<'a> {
    /// The samples of a run, the first of them being sample `first` of the recording. The number
    /// after the last fits in a `u64`.
    ///
    /// # Panics
    ///
    /// Plain Rust panics where a number would be 2^64 or more.
    #[must_use]
    pub fn new(samples: PackedSamples<'a>, first: u64) -> NumberedSamples<'a> {
        assert!(
            samples.len() as u64 <= u64::MAX - first,
            "NumberedSamples::new requires first + samples.len() < 2^64"
        );
        NumberedSamples { samples, first }
    }
}

impl<'a> SampleSource for NumberedSamples<'a> {
    fn first(&self) -> u64 {
        self.first
    }

    fn end(&self) -> u64 {
        self.first + self.samples.len() as u64
    }

    fn unpack_into(&self, n: u64, len: usize, _near: &mut [u8; NEAR_BYTES], planes: &mut Planes) {
        self.samples
            .part((n - self.first) as usize, len)
            .unpack_into(planes);
    }
}
