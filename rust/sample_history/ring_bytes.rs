// Made by tools/rust of crates/sample_history/src/ring_bytes.rt: change that.
//! Runs of bytes into a ring and out of it.

use crate::sample_history::shifted_bytes::{MOST_RUN_BYTES, filled_byte, shifted_byte, shifted_bytes};
use crate::kit::circular_buffer::HeapCircularBuffer;

/// Appends `count` bytes, which are the bits of some bytes from bit `place` on. The ring keeps
/// its last ones.
pub(crate) fn append_bits(
    ring: &mut HeapCircularBuffer<u8>,
    bytes: &[u8],
    place: usize,
    count: usize,
) {
    if place % 8 == 0 {
        ring.extend_from_slice(&bytes[place / 8..place / 8 + count]);
    } else {
        ring.extend_from_slice(&shifted_bytes(bytes, place, count)[..count]);
    }
}

/// Appends the bits of `bytes` from bit `start` on. The first of them fill up the byte `begun`,
/// whose first `used` bits stay. With those that follow `whole` bytes get full. It returns the byte
/// after these. The ring keeps its last bytes.
pub(crate) fn grow(
    ring: &mut HeapCircularBuffer<u8>,
    begun: u8,
    used: usize,
    bytes: &[u8],
    start: usize,
    whole: usize,
) -> u8 {
    if used == 0 {
        // No byte is begun, so that all come at once.
        append_bits(ring, bytes, start, whole);
        return shifted_byte(bytes, start + 8 * whole);
    }
    let head = filled_byte(begun, shifted_byte(bytes, start), used);
    if whole == 0 {
        return head;
    }
    let behind = start + 8 - used;
    ring.push_back(head);
    append_bits(ring, bytes, behind, whole - 1);
    shifted_byte(bytes, behind + 8 * (whole - 1))
}

/// Copies bytes out of a ring, from byte `at` of it on.
pub(crate) fn copy_out(ring: &HeapCircularBuffer<u8>, at: usize, to: &mut [u8]) {
    let (front, back) = ring.as_slices();
    let len = to.len();
    if at + len <= front.len() {
        to.copy_from_slice(&front[at..at + len]);
    } else if front.len() <= at {
        let at = at - front.len();
        to.copy_from_slice(&back[at..at + len]);
    } else {
        let (first, rest) = to.split_at_mut(front.len() - at);
        first.copy_from_slice(&front[at..]);
        rest.copy_from_slice(&back[..rest.len()]);
    }
}
