// Made by tools/rust of crates/signal_tests/src/bit_planes_tests.rt: change that.
//! Planes by hand.

use crate::kit::std::HostRuntime;
use crate::signal_tests::asserted::assert_same;
use crate::bit_planes::{Plane, bit_of_each, marked_bytes};
use crate::kit::lanes::u8x64;

#[test]
fn words_of_a_plane() {
    let rt = HostRuntime;
    let mut plane = Plane::new();
    plane.set_word(0, 0x8001_ffff_0000_0000);
    plane.set_word(1, 0x0000_4000_0000_0000);
    assert_same(
        &rt,
        [
            plane.bit(0),
            plane.bit(1),
            plane.bit(15),
            plane.bit(32),
            plane.bit(81),
        ],
        [1, 0, 1, 0, 1],
    );
}

#[test]
fn lane_0_is_the_last_place_of_a_word() {
    let rt = HostRuntime;
    let mut bytes = [0x20; 64];
    bytes[0] = 0x60;
    bytes[62] = 0xdf;
    bytes[63] = 0x40;
    let bytes = u8x64::from_array(bytes);
    let words = [
        bit_of_each(bytes, 6),
        bit_of_each(bytes, 5),
        bit_of_each(bytes, 4),
    ];
    let expected = [
        0xc000_0000_0000_0001,
        0x3fff_ffff_ffff_ffff,
        0x4000_0000_0000_0000,
    ];
    assert_same(&rt, words, expected);
}

#[test]
fn bytes_marked_by_their_bits() {
    let rt = HostRuntime;
    // The mask of lane 2 names the top bit, that of lane 41 the lowest; no other lane has its bit.
    let mut masks = [0x40; 64];
    masks[2] = 0x80;
    masks[41] = 0x01;
    let mut expected = [0; 64];
    expected[2] = 4;
    expected[41] = 4;
    let marked = marked_bytes(u8x64::splat(0x81), u8x64::from_array(masks), 4);
    assert_same(&rt, marked.to_array(), expected);
}
