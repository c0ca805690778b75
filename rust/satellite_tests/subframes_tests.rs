// Made by tools/rust of crates/satellite_tests/src/subframes_tests.rt: change that.
//! Fields and pages of subframes whose bits are known.

use crate::kit::std::HostRuntime;
use crate::satellite_tests::asserted::{assert_same, assert_same_at, assert_that};
use crate::satellite_tests::sent::subframe_from;
use crate::frame_sync::Subframe;
use crate::kit::std::process::Abort;
use crate::subframes::{
    AlmanacField, ClockField, Eph2Field, Field, HealthField, Kind, Page, UtcField,
    ephemeris_fields, field,
};

mod tables;

use tables::{ALMANAC, CLOCK, EPH2, EPH3, Entry, HEALTH, UTC};

/// The handover words of subframes 1 to 5 at one time count.
static HANDOVERS: [u32; 5] = [0x84, 0x88, 0x8c, 0x90, 0x94];

/// In words 3 and 4 of this almanac the data ID is 1, the SV ID 5 and the time of applicability 7.
/// In word 10 stand both parts of af0: the sign bit, and the highest of the low three bits.
const WORDS: [u32; 8] = [0x45_0000, 0x07_0000, 0, 0, 0, 0, 0, 0x80_0004];

/// Its numbers, in the order of the table.
const VALUES: [i64; 13] = [1, 5, 0, 7, 0, 0, 0, 0, 0, 0, 0, -1_023, 0];

/// Its page.
const PAGE: Page = Page::Almanac(VALUES);

const EPHEMERIS: [u32; 8] = [0, 0x80, 0, 0xff, 0xff_ffff, 0, 0, 0];

/// The words of subframes from word 2 on, and what they have at a field.
static SIGNED: [(u32, [u32; 8], Field, i64); 5] = [
    (
        0x84,
        [0, 0, 0, 0, 0x80, 0, 0, 0],
        Field::Clock(ClockField::Tgd),
        -128,
    ),
    (0x88, EPHEMERIS, Field::Eph2(Eph2Field::M0), -2_147_483_648),
    (0x88, EPHEMERIS, Field::Eph2(Eph2Field::E), 4_294_967_295),
    (
        0x94,
        [0, 0, 0, 0, 0, 0, 0, 0x80_0004],
        Field::Almanac(AlmanacField::Af0),
        -1_023,
    ),
    (
        0x94,
        [0, 0, 0, 0, 0, 0, 0, 0x80_0004],
        Field::Almanac(AlmanacField::Af1),
        0,
    ),
];

#[test]
fn signed_fields() {
    let rt = HostRuntime;
    for (handover, words, named, expected) in &SIGNED {
        let subframe = subframe(&rt, *handover, *words);
        assert_field(&rt, &subframe, *named, Some(*expected));
    }
}

#[test]
fn each_field_alone() {
    let rt = HostRuntime;
    let rt = &rt;
    assert_fields(rt, Kind::Clock, &CLOCK);
    assert_fields(rt, Kind::Eph2, &EPH2);
    assert_fields(rt, Kind::Eph3, &EPH3);
    assert_fields(rt, Kind::Almanac, &ALMANAC);
    assert_fields(rt, Kind::Utc, &UTC);
    assert_fields(rt, Kind::Health, &HEALTH);
    assert_same(rt, Kind::Message.fields().len(), 0);
}

#[test]
fn incomplete_page() {
    let rt = HostRuntime;
    let rt = &rt;
    let zero = Some(0);
    let words = [zero, zero, None, zero, zero, zero, zero, zero];
    let incomplete = subframe_from(rt, 0x84, words);
    assert_same(rt, Page::read(&incomplete), None);
    assert_field(rt, &incomplete, Field::Clock(ClockField::Tgd), Some(0));
    // m0 has parts in words 4 and 5.
    assert_field(rt, &incomplete, Field::Eph2(Eph2Field::M0), None);
    assert_field(rt, &incomplete, Field::Eph2(Eph2Field::Dn), Some(0));
}

#[test]
fn kinds_of_pages() {
    let rt = HostRuntime;
    let rt = &rt;
    assert_kind(rt, 0x84, 0xff_0000, Some(Kind::Clock));
    assert_kind(rt, 0x88, 0xff_0000, Some(Kind::Eph2));
    assert_kind(rt, 0x8c, 0xff_0000, Some(Kind::Eph3));
    for sv in 0..64u32 {
        assert_kinds(rt, sv, kinds_by_sv(sv));
    }
}

/// The kinds of the pages of an SV ID in subframe 4 and in subframe 5.
fn kinds_by_sv(sv: u32) -> [Option<Kind>; 2] {
    match sv {
        1..=32 => [Some(Kind::Almanac); 2],
        51 => [None, Some(Kind::Health)],
        55 => [Some(Kind::Message), None],
        56 => [Some(Kind::Utc), None],
        _ => [None; 2],
    }
}

static DATA_IDS: [u32; 4] = [0x00_0000, 0x40_0000, 0x80_0000, 0xc0_0000];

/// Asserts the kinds of the pages of an SV ID in subframe 4 and in subframe 5.
fn assert_kinds(rt: &impl Abort, sv: u32, [fourth, fifth]: [Option<Kind>; 2]) {
    for id in &DATA_IDS {
        assert_kind(rt, 0x90, *id | (sv << 16), fourth);
        assert_kind(rt, 0x94, *id | (sv << 16), fifth);
    }
}

/// Asserts the kind of the page that begins with this word 3.
fn assert_kind(rt: &impl Abort, handover: u32, begun: u32, expected: Option<Kind>) {
    let found = kind(rt, handover, begun);
    assert_same_at(rt, (handover, begun), found, expected);
}

#[test]
fn values_in_table_order() {
    let rt = HostRuntime;
    let page = Page::read(&subframe(&rt, 0x94, WORDS));
    assert_same(&rt, page, Some(PAGE));
}

static BY_NAME: [(Field, Option<i64>); 9] = [
    (Field::Almanac(AlmanacField::Data), Some(1)),
    (Field::Almanac(AlmanacField::Sv), Some(5)),
    (Field::Almanac(AlmanacField::E), Some(0)),
    (Field::Almanac(AlmanacField::Toa), Some(7)),
    (Field::Almanac(AlmanacField::Af0), Some(-1_023)),
    (Field::Almanac(AlmanacField::Af1), Some(0)),
    // fields of these names, but of other tables
    (Field::Health(HealthField::Toa), None),
    (Field::Clock(ClockField::Af0), None),
    (Field::Utc(UtcField::Sv), None),
];

#[test]
fn values_by_name() {
    let rt = HostRuntime;
    let rt = &rt;
    let page = PAGE;
    for (field, expected) in &BY_NAME {
        assert_value(rt, &page, *field, *expected);
    }
    let values = VALUES;
    assert_same(rt, page.values(), values.as_slice());
}

static COUNTS: [Page; 6] = [
    Page::Clock([1, 2, 3, 4, 5, 6, 7, 8, 9, 10, 11]),
    Page::Eph2([1, 2, 3, 4, 5, 6, 7, 8, 9, 10, 11]),
    Page::Eph3([1, 2, 3, 4, 5, 6, 7, 8, 9]),
    Page::Almanac([1, 2, 3, 4, 5, 6, 7, 8, 9, 10, 11, 12, 13]),
    Page::Utc([
        1, 2, 3, 4, 5, 6, 7, 8, 9, 10, 11, 12, 13, 14, 15, 16, 17, 18,
    ]),
    Page::Health([
        1, 2, 3, 4, 5, 6, 7, 8, 9, 10, 11, 12, 13, 14, 15, 16, 17, 18, 19, 20, 21, 22, 23, 24, 25,
        26, 27, 28,
    ]),
];

// The value of each field of a page that has a number of its own in each place.
#[test]
fn each_value_by_name() {
    let rt = HostRuntime;
    for page in &COUNTS {
        assert_counts_up(&rt, page);
    }
}

/// Asserts that each field of a page has the number of its place, from 1.
fn assert_counts_up(rt: &impl Abort, page: &Page) {
    let mut expected = 0i64;
    for field in page.kind().fields() {
        expected = expected.wrapping_add(1);
        assert_value(rt, page, *field, Some(expected));
    }
    assert_same(rt, page.values().len(), page.kind().fields().len());
}

/// Asserts the value that a page has by a field's name.
fn assert_value(rt: &impl Abort, page: &Page, field: Field, expected: Option<i64>) {
    assert_same_at(rt, field.name(), page.value(field), expected);
}

// The 31 names in the order of the lines: subframe 1, 2 and 3, each as its table has it.
#[test]
fn names_of_an_ephemeris() {
    let rt = HostRuntime;
    let rt = &rt;
    let fields = ephemeris_fields();
    assert_that(rt, fields.len() == 31);
    assert_names(rt, &fields[..11], &CLOCK);
    assert_names(rt, &fields[11..22], &EPH2);
    assert_names(rt, &fields[22..], &EPH3);
}

/// Asserts that fields have the names and the exponents of these entries.
fn assert_names(rt: &impl Abort, fields: &[Field], entries: &[Entry]) {
    assert_that(rt, fields.len() == entries.len());
    for k in 0..fields.len() {
        assert_name(rt, fields[k], &entries[k]);
    }
}

fn assert_name(rt: &impl Abort, field: Field, entry: &Entry) {
    assert_same(
        rt,
        (field.name(), field.exponent()),
        (entry.name, entry.exponent),
    );
}

#[test]
fn message_characters() {
    let rt = HostRuntime;
    let rt = &rt;
    let words = [
        0x77_4750, 0x53_204c, 0x31_2043, 0x2f_4120, 0x54_4553, 0x54_2c20, 0x32_3220, 0x43_4800,
    ];
    let text = Page::Message(*b"GPS L1 C/A TEST, 22 CH");
    assert_same(rt, Page::read(&subframe(rt, 0x90, words)), Some(text));
    assert_same(rt, text.values().len(), 0);
    assert_value(rt, &text, Field::Utc(UtcField::Sv), None);
}

/// Asserts that each field of a kind is as its table has it, in its order.
fn assert_fields(rt: &impl Abort, kind: Kind, entries: &[Entry]) {
    let fields = kind.fields();
    assert_names(rt, fields, entries);
    for k in 0..fields.len().min(entries.len()) {
        for handover in &HANDOVERS {
            assert_bits(rt, *handover, fields[k], &entries[k]);
        }
    }
}

/// Asserts what a subframe has at a field whose bits alone are 1, or alone are 0.
fn assert_bits(rt: &impl Abort, handover: u32, field: Field, entry: &Entry) {
    let ones = with_bits(rt, handover, &entry.parts, true);
    assert_field(rt, &ones, field, Some(all_ones(entry)));
    let zeros = with_bits(rt, handover, &entry.parts, false);
    assert_field(rt, &zeros, field, Some(0));
}

/// Asserts what a subframe has at a field.
fn assert_field(rt: &impl Abort, subframe: &Subframe, named: Field, expected: Option<i64>) {
    assert_same_at(rt, named.name(), field(subframe, named), expected);
}

/// What a field with all its bits 1 is.
fn all_ones(entry: &Entry) -> i64 {
    if entry.is_signed {
        return -1;
    }
    let mut number = 0i64;
    for (first, last) in &entry.parts {
        for _ in *first..=*last {
            number = number.wrapping_mul(2).wrapping_add(1);
        }
    }
    number
}

/// The subframe whose bits in these parts are 1 and all others of words 3 to 10 are 0, or the
/// reverse.
fn with_bits(
    rt: &impl Abort,
    handover: u32,
    parts: &[(usize, usize); 2],
    inside: bool,
) -> Subframe {
    let mut words = [0; 8];
    for i in 0..8usize {
        words[i] = word_with_bits(i + 2, parts, inside);
    }
    subframe(rt, handover, words)
}

/// The data of the word after so many whose bits in these parts are 1 and all others are 0, or the
/// reverse.
fn word_with_bits(before: usize, parts: &[(usize, usize); 2], inside: bool) -> u32 {
    let mut word = 0u32;
    for bit in 1..=24usize {
        let is_one = is_in(parts, 30 * before + bit) == inside;
        word = word << 1 | u32::from(is_one);
    }
    word & 0xff_ffff
}

fn is_in([(first, last), (next, end)]: &[(usize, usize); 2], place: usize) -> bool {
    (*first <= place && place <= *last) || (*next <= place && place <= *end)
}

/// The kind of the page that begins with this word 3.
fn kind(rt: &impl Abort, handover: u32, begun: u32) -> Option<Kind> {
    let page = Page::read(&subframe(rt, handover, [begun, 0, 0, 0, 0, 0, 0, 0]))?;
    Some(page.kind())
}

/// The subframe with this word 2 and these words from word 3 on.
fn subframe(rt: &impl Abort, handover: u32, words: [u32; 8]) -> Subframe {
    subframe_from(rt, handover, words.map(Some))
}
