// Made by tools/rust of crates/signal_tests/src/ca_codes_tests.rt: change that.
//! The code table's octal column, and the ends of a code.

use crate::kit::std::HostRuntime;
use crate::signal_tests::asserted::{assert_same, assert_same_at, assert_that};
use crate::signal_tests::parts::satellite;
use crate::ca_codes::{CodeBook, Prn, PrnFault};

/// The first ten chips of satellites 1 to 32 in octal, as the standard lists them (IS-GPS-200,
/// table 3-Ia): the first digit stands for one chip, the other three for three chips each.
static FIRST_CHIPS: [u32; 32] = [
    0o1440, 0o1620, 0o1710, 0o1744, 0o1133, 0o1455, 0o1131, 0o1454, 0o1626, 0o1504, 0o1642, 0o1750,
    0o1764, 0o1772, 0o1775, 0o1776, 0o1156, 0o1467, 0o1633, 0o1715, 0o1746, 0o1763, 0o1063, 0o1706,
    0o1743, 0o1761, 0o1770, 0o1774, 0o1127, 0o1453, 0o1625, 0o1712,
];

/// Ten chips as a number, the first of them its highest bit.
fn first_ten_chips(book: &mut CodeBook, prn: Prn, first: u32) -> u32 {
    let mut chips = 0u32;
    for i in 0..10u32 {
        chips = chips.wrapping_mul(2) | u32::from(book.chip(prn, first.wrapping_add(i)));
    }
    chips
}

#[test]
fn each_code_begins_as_listed() {
    let rt = HostRuntime;
    let mut book = CodeBook::new();
    for place in 0..32 {
        let number = place as u8 + 1;
        let chips = first_ten_chips(&mut book, satellite(&rt, number), 0);
        assert_same_at(&rt, number, chips, FIRST_CHIPS[place]);
    }
}

/// Chips of satellite 1, and whether they are 1. 4,294,967,295 is 4,198,404 times 1,023 and 3 more.
static CHIPS: [(u32, bool); 5] = [
    (1021, false),
    (1022, false),
    (u32::MAX - 2, true),
    (u32::MAX - 1, false),
    (u32::MAX, false),
];

#[test]
fn a_code_repeats_after_1023_chips() {
    let rt = HostRuntime;
    let rt = &rt;
    let mut book = CodeBook::new();
    let prn = satellite(rt, 1);
    assert_same(rt, first_ten_chips(&mut book, prn, 1023), 0o1440);
    for &(place, is_one) in &CHIPS {
        assert_same_at(rt, place, book.chip(prn, place), is_one);
    }
}

#[test]
fn satellites_are_1_to_32() {
    let rt = HostRuntime;
    let rt = &rt;
    let last = satellite(rt, 32);
    assert_same(rt, last.get(), 32);
    assert_same(rt, [Prn::new(0), Prn::new(33)], [None, None]);
    assert_same(
        rt,
        [Prn::try_from(32), Prn::try_from(33)],
        [Ok(last), Err(PrnFault)],
    );
    assert_that(rt, Prn::new(31) < Some(last));
}

#[test]
fn window_wraps() {
    let rt = HostRuntime;
    let mut book = CodeBook::new();
    let prn = satellite(&rt, 1);
    // Chips 1021 and 1022 are 0, and the code begins with 1100100000.
    let begun = [
        book.window(prn, 1021) >> 52,
        book.window(prn, 2 * 1023 + 1021) >> 52,
    ];
    assert_same(&rt, begun, [0x320, 0x320]);
}

/// The first ten chips of two satellites, which a book is asked for in this order.
fn first_chips_of(mut book: CodeBook, first: Prn, second: Prn) -> (u64, u64) {
    (book.window(first, 0) >> 54, book.window(second, 0) >> 54)
}

#[test]
fn either_order_fills_the_book() {
    let rt = HostRuntime;
    let rt = &rt;
    let (low, high) = (satellite(rt, 3), satellite(rt, 19));
    // The first ten chips of both are those of the standard's table, whichever of them the book was
    // asked for first.
    let upward = first_chips_of(CodeBook::new(), low, high);
    let downward = first_chips_of(CodeBook::default(), high, low);
    assert_same(rt, (upward, downward), ((0o1710, 0o1633), (0o1633, 0o1710)));
}
