// Made by tools/rust of crates/signal_tests/src/oscillators_tests.rt: change that.
//! Steps worked out by hand, the ends of all ranges, and planes at extreme steps.

use crate::kit::std::HostRuntime;
use crate::signal_tests::asserted::{assert_same, assert_same_at, assert_shown, assert_that};
use crate::signal_tests::parts::{half_chip, satellite};
use crate::ca_codes::{CodeBook, Prn};
use crate::oscillators::*;
use crate::sample_planes::Format;
use crate::kit::std::process::Abort;

/// Steps with no phase gained, with the greatest phase gained, with the chip or the sign turned at
/// each sample, and on both sides of the greatest step with which chips have windows.
static EXTREME_STEPS: [u32; 6] = [
    0,
    1,
    1 << 31,
    MOST_WINDOW_STEP,
    MOST_WINDOW_STEP + 1,
    u32::MAX,
];

/// The code's cycle, 1,023 chips of 2^32.
const CYCLE: u128 = 4_393_751_543_808;

// Of the code's steps the second has -1/1540, which is rounded down to -1, so the rate is 1,023,000
// * 65,536 - 1 in 1/65536 chip a second. Times 65,536 and over 2,046,000 that is 2^31 -
// 65,536/2,046,000, a little less than 2^31, and rounded down 2^31 - 1. With -1/1540 rounded to 0
// it would be 2^31.
#[test]
fn floor_steps() {
    let rt = HostRuntime;
    let rt = &rt;
    let fast = Settings::new(4_092_000, 0, Format::Real1).expect((rt, "settings").1);
    let slow = Settings::new(2_046_000, 0, Format::Real1).expect((rt, "settings").1);
    let carrier = fast.carrier_step(-65_536);
    let code = [
        fast.code_step(1540 * 65_536, 0),
        slow.code_step(-1, 0),
        slow.code_step(0, 0),
    ];
    let expected = [1_073_742_873, 2_147_483_647, 2_147_483_648];
    assert_same(rt, (carrier, code), (4_294_966_246, expected));
}

/// Rates and offsets at the ends of their ranges, and what is wrong with them.
static LIMITS: [(u32, i64, Option<SettingsFault>); 10] = [
    (2_045_999, 0, Some(SettingsFault::Rate)),
    (2_046_000, 0, None),
    (20_000_000, 0, None),
    (20_000_001, 0, Some(SettingsFault::Rate)),
    (2_046_000, 1_023_001, Some(SettingsFault::Offset)),
    (2_046_000, -1_023_001, Some(SettingsFault::Offset)),
    (2_046_000, 1_023_000, None),
    (2_046_000, -1_023_000, None),
    (2_046_000, i64::MIN, Some(SettingsFault::Offset)),
    (2_045_999, 1_023_001, Some(SettingsFault::Rate)),
];

#[test]
fn stated_limits() {
    let rt = HostRuntime;
    for &(rate, offset, fault) in &LIMITS {
        let found = Settings::new(rate, offset, Format::Real2).err();
        assert_same_at(&rt, (rate, offset), found, fault);
    }
}

/// Numbers of Hz, and the shifts that have them.
static SHIFTS: [(i32, Option<i32>); 5] = [
    (-16_001, None),
    (-16_000, Some(-16_000)),
    (-1_000, Some(-1_000)),
    (16_000, Some(16_000)),
    (16_001, None),
];

/// The shift that has this number of Hz, where there is one.
fn shift(hz: i32) -> Option<i32> {
    match Doppler::new(hz) {
        Some(shift) => Some(shift.get()),
        None => None,
    }
}

#[test]
fn shifts_have_ranges_and_an_order() {
    let rt = HostRuntime;
    let rt = &rt;
    for &(hz, expected) in &SHIFTS {
        assert_same_at(rt, hz, shift(hz), expected);
    }
    assert_that(rt, Doppler::new(-1) < Doppler::new(0));
}

#[test]
fn half_chips_have_ranges_and_an_order() {
    let rt = HostRuntime;
    let valid = [
        HalfChip::new(0).is_some(),
        HalfChip::new(2_046).is_some(),
        HalfChip::new(2_044) < HalfChip::new(2_045),
    ];
    let last = half_chip(&rt, 2_045).get();
    assert_same(&rt, (valid, last), ([true, false, true], 2_045));
}

/// What the faults say.
static TEXTS: [(SettingsFault, &str); 2] = [
    (
        SettingsFault::Rate,
        "the rate is from 2046000 to 20000000 samples a second",
    ),
    (
        SettingsFault::Offset,
        "the offset is at most half the rate in size",
    ),
];

#[test]
fn fault_texts() {
    let rt = HostRuntime;
    for &(fault, text) in &TEXTS {
        assert_shown(&rt, fault, text);
    }
}

#[test]
fn settings_tell_their_parts() {
    let rt = HostRuntime;
    let settings = Settings::new(2_047_999, -511_500, Format::Real2).expect((&rt, "settings").1);
    let copy = settings;
    let told = (settings.rate(), settings.offset(), settings.format());
    assert_same(
        &rt,
        (told, settings.per_ms(), copy),
        ((2_047_999, -511_500, Format::Real2), 2_047, settings),
    );
}

/// Cosine and sine, by the eighth of the cycle.
static VALUES: [(i8, i8); 8] = [
    (2, 1),
    (1, 2),
    (-1, 2),
    (-2, 1),
    (-2, -1),
    (-1, -2),
    (1, -2),
    (2, -1),
];

/// A phase, in units of 2^-32, so many samples later.
fn phase_after(phase: u128, samples: u64, step: u32) -> u128 {
    phase % CYCLE + u128::from(samples) * u128::from(step)
}

/// A carrier at the phase 0xb000_0003, with this step.
fn carrier(step: u32) -> CarrierOsc {
    let mut osc = CarrierOsc::new(0x9000_0001);
    osc.advance(3);
    osc.set_step(step);
    osc
}

/// Asserts the values of a carrier with this step.
fn assert_carrier(rt: &impl Abort, step: u32) {
    let planes = carrier(step).planes(130);
    assert_same(rt, planes.len(), 130);
    for i in 0..130 {
        let phase = phase_after(0xb000_0003, i as u64, step) % 0x1_0000_0000;
        let expected = VALUES[(phase / 0x2000_0000) as usize];
        assert_same_at(rt, (i, step), (planes.cos(i), planes.sin(i)), expected);
    }
}

/// Asserts the eighths of two words of a carrier, of which the first has so many samples before the
/// carrier's own.
fn assert_eighths(rt: &impl Abort, step: u32, before: u32) {
    let osc = carrier(step);
    let mut words = osc.words(before);
    for w in 0..2u32 {
        let lanes = words.next_eighths().to_array();
        for j in 0..64u32 {
            let way = (64 * w + j).wrapping_sub(before);
            // Phases are modulo 2^32.
            let phase = 0xb000_0003u32.wrapping_add(way.wrapping_mul(step));
            let found = lanes[63 - j as usize] as u32;
            assert_same_at(rt, (w, j, step, before), found, phase / 0x2000_0000);
        }
    }
}

#[test]
fn carrier_at_extreme_steps() {
    let rt = HostRuntime;
    let rt = &rt;
    for &step in &EXTREME_STEPS {
        assert_carrier(rt, step);
        assert_eighths(rt, step, 0);
        assert_eighths(rt, step, 1);
        assert_eighths(rt, step, 63);
    }
}

/// The sign of the chip at a phase of any number of cycles.
fn sign(book: &mut CodeBook, prn: Prn, phase: u128) -> i8 {
    if book.chip(prn, (phase % CYCLE / 0x1_0000_0000) as u32) {
        -1
    } else {
        1
    }
}

/// The signs of the early, the prompt and the late chip at a phase of any number of cycles.
fn signs(book: &mut CodeBook, prn: Prn, phase: u128) -> (i8, i8, i8) {
    let phase = phase % CYCLE;
    (
        sign(book, prn, phase + 0x8000_0000),
        sign(book, prn, phase),
        sign(book, prn, phase + CYCLE - 0x8000_0000),
    )
}

/// The phase at a half chip.
fn half_phase(half_chips: u16) -> u128 {
    u128::from(half_chips) * 0x8000_0000
}

/// Asserts the signs of 130 samples of satellite 19, at a half chip and with a step.
fn assert_code(rt: &impl Abort, book: &mut CodeBook, half_chips: u16, step: u32) {
    let prn = satellite(rt, 19);
    let planes = CodeOsc::new(half_chip(rt, half_chips), step).planes(130, book, prn);
    assert_same(rt, planes.len(), 130);
    for i in 0..130 {
        let phase = phase_after(half_phase(half_chips), i as u64, step);
        assert_same_at(
            rt,
            (i, half_chips, step),
            (planes.early(i), planes.prompt(i), planes.late(i)),
            signs(book, prn, phase),
        );
    }
}

#[test]
fn code_views_at_every_half_chip_and_extreme_steps() {
    let rt = HostRuntime;
    let mut book = CodeBook::new();
    for half_chips in 0..2_046u16 {
        for &step in &EXTREME_STEPS {
            assert_code(&rt, &mut book, half_chips, step);
        }
    }
}

/// The masks of those chips.
fn masks(book: &mut CodeBook, prn: Prn, phase: u128) -> (u8, u8, u8) {
    let (early, prompt, late) = signs(book, prn, phase);
    (mask(early), mask(prompt), mask(late))
}

/// The mask of a chip with this sign.
fn mask(sign: i8) -> u8 {
    if sign < 0 { 255 } else { 0 }
}

/// Asserts the masks of two words of satellite 19, of which the first has so many samples before
/// those of the code.
fn assert_mask_words(rt: &impl Abort, book: &mut CodeBook, half_chips: u16, step: u32, before: u32) {
    let prn = satellite(rt, 19);
    let osc = CodeOsc::new(half_chip(rt, half_chips), step);
    let mut words = osc.words(before);
    for w in 0..2u32 {
        let lanes = words.next_lanes(book.table(prn));
        // A whole number of cycles more, so that no phase is below 0.
        let samples = 64 * (u64::from(w) + CYCLE as u64) - u64::from(before);
        let first = phase_after(half_phase(half_chips), samples, step);
        assert_masks(rt, book, &lanes, first, step);
    }
}

/// Asserts whether the chips have windows, and the masks that they give.
fn assert_windows(rt: &impl Abort, book: &mut CodeBook, half_chips: u16, step: u32) {
    let prn = satellite(rt, 19);
    let osc = CodeOsc::new(half_chip(rt, half_chips), step);
    let mut words = osc.words(0);
    assert_same_at(rt, step, words.has_windows(), step <= 0xe666_6666);
    if words.has_windows() {
        let lanes = words.next_lanes_by_windows(book.table(prn));
        assert_masks(rt, book, &lanes, half_phase(half_chips), step);
    }
}

/// Asserts the masks at a half chip and with each extreme step.
fn assert_all_masks(rt: &impl Abort, half_chips: u16) {
    let mut book = CodeBook::new();
    for &step in &EXTREME_STEPS {
        assert_windows(rt, &mut book, half_chips, step);
        assert_mask_words(rt, &mut book, half_chips, step, 0);
        assert_mask_words(rt, &mut book, half_chips, step, 1);
        assert_mask_words(rt, &mut book, half_chips, step, 63);
    }
}

#[test]
fn chip_masks_at_extreme_steps() {
    let rt = HostRuntime;
    let rt = &rt;
    assert_all_masks(rt, 0);
    assert_all_masks(rt, 1);
    assert_all_masks(rt, 1_023);
    assert_all_masks(rt, 2_045);
}

/// The masks of 64 samples of satellite 19, the first of them at a phase, are those of its chips.
fn assert_masks(rt: &impl Abort, book: &mut CodeBook, lanes: &ChipLanes, first: u128, step: u32) {
    let prn = satellite(rt, 19);
    let early = lanes.early.to_array();
    let prompt = lanes.prompt.to_array();
    let late = lanes.late.to_array();
    for j in 0..64 {
        let phase = phase_after(first, j as u64, step);
        assert_same_at(
            rt,
            (j, first, step),
            (early[63 - j], prompt[63 - j], late[63 - j]),
            masks(book, prn, phase),
        );
    }
}

#[test]
fn code_goes_round() {
    let rt = HostRuntime;
    let rt = &rt;
    let mut osc = CodeOsc::new(half_chip(rt, 2_045), 0x7fff_ffff);
    // Half a chip is left, and a step is 2^-32 chip less, so it takes two.
    assert_same(rt, (osc.phase(), osc.to_wrap()), (2_045 * 0x8000_0000, 2));
    osc.advance(2);
    assert_phase(rt, &osc, 0x7fff_fffe);
    osc.set_step(0x8000_0000);
    osc.jump(2_045);
    let last = 0x7fff_fffe + 1_022 * 0x1_0000_0000 + 0x8000_0000;
    assert_same(rt, (osc.phase(), osc.to_wrap()), (last, 1));
    osc.set_step(u32::MAX);
    osc.jump(u64::MAX);
    let jump = 0xffff_ffff_ffff_ffff * 0xffff_ffff;
    assert_phase(rt, &osc, (u128::from(last) + jump) % CYCLE);
}

/// Asserts the phase, in 2^-32 chip.
fn assert_phase(rt: &impl Abort, osc: &CodeOsc, expected: u128) {
    assert_same(rt, osc.phase() as u128, expected);
}
