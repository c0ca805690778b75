// Made by tools/rust of crates/sample_history/src/shifted_bytes.rt: change that.
//! Bytes read from any bit of other bytes on.

/// The most bytes that a run of samples fills.
pub(crate) const MOST_RUN_BYTES: usize = 512;

/// The eight bits of two bytes from bit `place` on, 0 to 7, which is counted from the top one.
fn bits_of_two(high: u8, low: u8, place: usize) -> u8 {
    (((high as u32 * 256 + low as u32) >> (8 - place)) % 256) as u8
}

/// The eight bits of some bytes from bit `place` on. After the bytes there are zeros.
pub(crate) fn shifted_byte(bytes: &[u8], place: usize) -> u8 {
    let at = place / 8;
    let high = if at < bytes.len() { bytes[at] } else { 0 };
    let low = if at + 1 < bytes.len() {
        bytes[at + 1]
    } else {
        0
    };
    bits_of_two(high, low, place % 8)
}

/// A byte whose first bits, as many as `place` says, are those of `before`, and whose other bits
/// are the first ones of `behind`.
pub(crate) fn filled_byte(before: u8, behind: u8, place: usize) -> u8 {
    ((((before as u32 >> (8 - place)) * 256 + behind as u32) >> place) % 256) as u8
}

/// `count` bytes, which are the bits of some bytes from bit `place` on. Zeros follow them.
pub(crate) fn shifted_bytes(bytes: &[u8], place: usize, count: usize) -> [u8; MOST_RUN_BYTES] {
    assert!(
        count <= MOST_RUN_BYTES,
        "shifted_bytes requires count <= MOST_RUN_BYTES"
    );
    let at = place / 8;
    let mut out = [0; MOST_RUN_BYTES];
    let mut high = bytes[at];
    for k in 0..count {
        let low = bytes[at + k + 1];
        out[k] = bits_of_two(high, low, place % 8);
        high = low;
    }
    out
}
