// Made by tools/rust of crates/signal_tests/src/made_signals_tests.rt: change that.
//! The first bytes of signals and files.

use crate::kit::std::HostRuntime;
use crate::signal_tests::asserted::{assert_same, assert_same_at};
use crate::made_signals::chip_signs::ChipSigns;
use crate::made_signals::noise::Noise;
use crate::made_signals::{MadeSignal, SampleStream, code_file};

/// The first ten chips of a satellite, the first of them the highest bit.
fn first_ten_chips(satellite: u8) -> u32 {
    let signs = ChipSigns::of(satellite);
    let mut chips = 0u32;
    for n in 0..10u64 {
        let is_one = signs.at(n.wrapping_mul(1 << 32)) < 0;
        chips = chips.wrapping_mul(2) | u32::from(is_one);
    }
    chips
}

// The first ten chips of satellites 1, 7 and 32 are the octal numbers 1440, 1131 and 1712
// (IS-GPS-200, table 3-Ia); the first digit stands for one chip.
#[test]
fn first_chips() {
    let rt = HostRuntime;
    let chips = [first_ten_chips(1), first_ten_chips(7), first_ten_chips(32)];
    assert_same(&rt, chips, [0o1440, 0o1131, 0o1712]);
}

// The first chips of satellite 1 are 1100100000, each of them in two samples, and chips 1021 and
// 1022 are 0. After them the code begins anew.
#[test]
fn code_file_begins_with_the_code() {
    let rt = HostRuntime;
    let bytes = code_file();
    assert_same(
        &rt,
        [bytes[0], bytes[1], bytes[255] & 0x3f],
        [0xf0, 0xc0, 0b00_00_11],
    );
}

/// How many of twenty bytes a stream fills, and the bytes.
fn filled(stream: &mut SampleStream) -> (usize, [u8; 20]) {
    let mut bytes = [0; 20];
    let count = stream.fill(&mut bytes);
    (count, bytes)
}

/// What `first_bytes` finds.
static FIRST_BYTES: [u8; 20] = [
    0x4e, 0x64, 0x4e, 0x66, 0x44, 0x4f, 0x33, 0x11, 0x1b, 0x31, 0xbb, 0xbb, 0x93, 0x99, 0x39, 0x39,
    0, 0, 0, 0,
];

// A program in another language, apart from this project, gives these bytes. By hand for the first
// of them: the carrier turns by 0.2444 of a cycle with each sample, so the cosines are 2, 1, -2 and
// -1. The first three samples meet chip 50 and the fourth chip 51 of satellite 7, both of them 0,
// and the first data bit is 0. So the values are 3, 1, -3 and -1.
#[test]
fn first_bytes() {
    let rt = HostRuntime;
    let rt = &rt;
    let mut stream = SampleStream::new(MadeSignal::with_tail(&[]), 64);
    assert_same(rt, filled(&mut stream), (16, FIRST_BYTES));
    assert_same(rt, filled(&mut stream).0, 0);
    assert_same(rt, stream.next_value(), None);
}

/// Eight values of a signal of satellite 7, from a sample's number on.
fn eight_values(signal: &MadeSignal, first: u64) -> [i32; 8] {
    let signs = ChipSigns::of(7);
    let mut values = [0; 8];
    for i in 0..8 {
        values[i] = signal.value(&signs, first.wrapping_add(i as u64));
    }
    values
}

// The same program gives these, too: the first bit 1 begins with sample 49,878, and the list after
// the bits that alternate with sample 1,999,877. Its first bit is 1 here, which turns the values
// from there on.
#[test]
fn data_bits_turn_the_values() {
    let rt = HostRuntime;
    let signal = MadeSignal::with_tail(&[true]);
    let values = [
        eight_values(&signal, 49_874),
        eight_values(&signal, 1_999_873),
    ];
    let expected = [[1, -3, -1, 3, 1, -3, -1, -3], [-3, -1, 3, 1, 3, 1, 3, 1]];
    assert_same(&rt, values, expected);
}

/// What `first_noise` finds.
static FIRST_NOISE: [i32; 8] = [-3, -1, 3, 1, -3, -3, -1, 1];

// By the same program.
#[test]
fn first_noise() {
    let rt = HostRuntime;
    let mut noise = Noise::new();
    for i in 0..8 {
        assert_same_at(&rt, i, noise.next_value(), FIRST_NOISE[i]);
    }
}

/// What `noise_in_place_of_a_signal` finds.
static NOISY_BYTES: [u8; 20] = [
    0x79, 0x4c, 0, 0, 0, 0, 0, 0, 0, 0, 0, 0, 0, 0, 0, 0, 0, 0, 0, 0,
];

// The first values of the signal and of the noise are those above. The noise of a stretch goes on
// after that of the one before, and the signal as if it had been there: the values are 3, -3, -1,
// 3, 3, 1, -3 and 1.
#[test]
fn noise_in_place_of_a_signal() {
    let rt = HostRuntime;
    let noisy = [(1, 4), (5, 7)];
    let mut stream = SampleStream::with_noise(MadeSignal::with_tail(&[]), 8, &noisy);
    assert_same(&rt, filled(&mut stream), (2, NOISY_BYTES));
}
