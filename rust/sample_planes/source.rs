// Made by tools/rust of crates/sample_planes/src/source.rt: change that.
//! What holds samples by their numbers in a recording.

use crate::sample_planes::layout::NEAR_BYTES;
use crate::sample_planes::planes::Planes;

/// What holds samples of a recording, numbered from the recording's first sample, which is 0.
pub trait SampleSource {
    /// The number of the first sample that it holds.
    fn first(&self) -> u64;

    /// The number after that of the last sample that the source holds, or that of the first where
    /// it holds none.
    fn end(&self) -> u64;

    /// The samples `n` to `n + len - 1`, all of which it holds; `len` is at most `MAX_SAMPLES`.
    /// Value i is sample `n + i`.
    fn planes(&self, n: u64, len: usize) -> Planes {
        let mut planes = Planes::new();
        self.unpack_into(n, len, &mut [0; NEAR_BYTES], &mut planes);
        planes
    }

    /// The same samples, into planes that are kept. Their bytes are put into `near`, which is kept
    /// too, so that nothing is cleared first. Any bytes may be there before.
    fn unpack_into(&self, n: u64, len: usize, near: &mut [u8; NEAR_BYTES], planes: &mut Planes)
;
}
