// Made by tools/rust of crates/satellite_tests/src/data_sets_tests/values.rt: change that.
//! The numbers of reports, in their order and by their names.

use crate::kit::std::HostRuntime;
use super::{ALMANAC, TEXT};
use crate::satellite_tests::asserted::{assert_same, assert_same_at};
use crate::data_sets::{DataSets, Report};
use crate::kit::std::process::Abort;
use crate::subframes::{
    AlmanacField, ClockField, Eph2Field, Eph3Field, Field, HealthField, Page, UtcField,
};

// The pages of a set whose numbers count up from 1, but for the issues: 268 is 256 + 12, and the
// issue is 12 in all three.
static CLOCK: Page = Page::Clock([1, 2, 3, 4, 268, 6, 7, 8, 9, 10, 11]);

static EPH2: Page = Page::Eph2([12, 13, 14, 15, 16, 17, 18, 19, 20, 21, 22]);

static EPH3: Page = Page::Eph3([23, 24, 25, 26, 27, 28, 29, 12, 31]);

static SET: [i64; 31] = [
    1, 2, 3, 4, 268, 6, 7, 8, 9, 10, 11, 12, 13, 14, 15, 16, 17, 18, 19, 20, 21, 22, 23, 24, 25,
    26, 27, 28, 29, 12, 31,
];

// All numbers of a set, in the order of the tables.
#[test]
fn numbers_in_table_order() {
    let rt = HostRuntime;
    let report = last_report(&rt, [&EPH2, &EPH3, &CLOCK]);
    assert_same(&rt, report, Report::Eph(SET));
}

/// A field, and the value that a report has by its name.
type Row = (Field, Option<i64>);

static OF_A_SET: [Row; 11] = [
    (Field::Clock(ClockField::Wn), Some(1)),
    (Field::Clock(ClockField::Iodc), Some(268)),
    (Field::Clock(ClockField::Af0), Some(11)),
    (Field::Eph2(Eph2Field::Iode), Some(12)),
    (Field::Eph2(Eph2Field::E), Some(17)),
    (Field::Eph2(Eph2Field::Aodo), Some(22)),
    (Field::Eph3(Eph3Field::Cic), Some(23)),
    (Field::Eph3(Eph3Field::Iode), Some(12)),
    (Field::Eph3(Eph3Field::Idot), Some(31)),
    (Field::Almanac(AlmanacField::E), None),
    (Field::Health(HealthField::Toa), None),
];

// By its name each of the 31 numbers of a set is that of its page.
#[test]
fn values_by_name() {
    let rt = HostRuntime;
    let rt = &rt;
    let set = last_report(rt, [&CLOCK, &EPH2, &EPH3]);
    assert_values(rt, &set, &OF_A_SET);
    assert_each_value(rt, &set);
    assert_lengths(rt, &set, 31);
}

static OF_AN_ALMANAC: [Row; 5] = [
    (Field::Almanac(AlmanacField::Sv), Some(5)),
    (Field::Almanac(AlmanacField::Health), Some(63)),
    (Field::Almanac(AlmanacField::M0), Some(-8_388_608)),
    (Field::Almanac(AlmanacField::Af1), Some(1)),
    (Field::Eph2(Eph2Field::M0), None),
];

// A single page says by its fields' names what it says as a page, and a message nothing.
#[test]
fn values_of_an_almanac() {
    let rt = HostRuntime;
    let rt = &rt;
    let report = DataSets::new().take(&Page::Almanac(ALMANAC)).page;
    let report = report.expect((rt, "a report").1);
    assert_values(rt, &report, &OF_AN_ALMANAC);
    let values = ALMANAC;
    assert_same(rt, report.values(), values.as_slice());
}

static UTC: Report = Report::Utc([1, 56, -1, 2, 3, 4, 5, 6, 7, 8, 9, 10, 11, 12, 18, 13, 7, 19]);

static OF_UTC: [Row; 2] = [
    (Field::Utc(UtcField::Dtls), Some(18)),
    (Field::Utc(UtcField::Dtlsf), Some(19)),
];

static HEALTH: Report = Report::Hlt([
    0, 0, 0, 0, 0, 0, 0, 0, 0, 0, 0, 0, 0, 0, 0, 0, 0, 0, 0, 0, 0, 0, 0, 0, 0, 0, 0, 63,
]);

static OF_HEALTH: [Row; 1] = [(Field::Health(HealthField::H24), Some(63))];

static MESSAGE: Report = Report::Msg(TEXT);

static OF_A_MESSAGE: [Row; 1] = [(Field::Health(HealthField::H24), None)];

#[test]
fn values_of_other_pages() {
    let rt = HostRuntime;
    let rt = &rt;
    assert_values(rt, &UTC, &OF_UTC);
    assert_lengths(rt, &UTC, 18);
    assert_values(rt, &HEALTH, &OF_HEALTH);
    assert_lengths(rt, &HEALTH, 28);
    assert_values(rt, &MESSAGE, &OF_A_MESSAGE);
    assert_lengths(rt, &MESSAGE, 0);
}

/// What the last of three pages, the first of all, makes reported.
fn last_report(rt: &impl Abort, [first, second, third]: [&Page; 3]) -> Report {
    let mut sets = DataSets::new();
    let _ = sets.take(first);
    let _ = sets.take(second);
    sets.take(third).page.expect((rt, "a set").1)
}

/// Asserts the values that a report has by these names.
fn assert_values(rt: &impl Abort, report: &Report, rows: &[Row]) {
    for (field, expected) in rows {
        assert_value(rt, report, *field, *expected);
    }
}

/// Asserts that by its name each field of a report has the value in its place.
fn assert_each_value(rt: &impl Abort, report: &Report) {
    let fields = report.fields();
    for k in 0..fields.len() {
        assert_value(rt, report, fields[k], report.values().get(k).copied());
    }
}

fn assert_value(rt: &impl Abort, report: &Report, field: Field, expected: Option<i64>) {
    assert_same_at(rt, field.name(), report.value(field), expected);
}

/// Asserts how many fields and how many values a report has.
fn assert_lengths(rt: &impl Abort, report: &Report, expected: usize) {
    assert_same(rt, report.fields().len(), expected);
    assert_same(rt, report.values().len(), expected);
}
