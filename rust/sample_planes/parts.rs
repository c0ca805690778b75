// Made by tools/rust of crates/sample_planes/src/parts.rt: change that.
//! Both parts of a run of samples, unpacked together.

use crate::sample_planes::format::Format;
use crate::sample_planes::layout::{NEAR_BYTES, WordLayout};
use crate::sample_planes::part::Part;
use crate::sample_planes::planes::MAX_SAMPLES;

/// Makes parts those of `len` samples of `near`, from sample `start` of its first byte on. Where
/// the samples are real, what `quadrature` has is kept. So is what the parts have after the last
/// word of samples, so that nothing has to be cleared.
pub(crate) fn fill_parts(
    in_phase: &mut Part,
    quadrature: &mut Part,
    format: Format,
    near: &[u8],
    start: usize,
    len: usize,
) {
    assert!(len <= MAX_SAMPLES, "fill_parts requires len <= MAX_SAMPLES");
    assert!(
        NEAR_BYTES <= near.len(),
        "fill_parts requires NEAR_BYTES <= near.len()"
    );
    let width = format.width();
    let has_sizes = format.has_sizes();
    let is_complex = format.has_quadrature();
    let layout = WordLayout::new(width, start);
    for w in 0..(len + 63) / 64 {
        // Both parts of a sample lie in one byte, so it is looked up once.
        let bytes = layout.bytes(near, w);
        in_phase.put(w, layout.codes(bytes, 0, has_sizes));
        if is_complex {
            quadrature.put(w, layout.codes(bytes, width / 2, has_sizes));
        }
    }
}
