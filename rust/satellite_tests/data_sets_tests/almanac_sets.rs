// Made by tools/rust of crates/satellite_tests/src/data_sets_tests/almanac_sets.rt: change that.
//! Sets of almanacs. What is expected was worked out by hand from the rules.

use crate::kit::std::HostRuntime;
use crate::satellite_tests::asserted::{assert_same_at, assert_that};
use crate::data_sets::{AlmanacSet, DataSets, Report, Reports};
use crate::kit::std::process::Abort;
use crate::subframes::Page;

/// The almanacs of satellites from the first of these to the last, with a time of applicability and
/// a health, whose other numbers are 0. The last of them makes a set of that time, or none does.
/// The healths of the set are 0, but that at a place, from 0, is given.
type Step = ([i64; 2], i64, i64, Option<(usize, i64)>);

const FIRST_31: Step = ([1, 31], 5, 0, None);

const LAST: Step = ([32, 32], 5, 0, Some((31, 0)));

static COURSES: [&[Step]; 3] = [
    // The row of the specification: each almanac is reported, the last of 32 makes the set, another
    // time of applicability takes it away, the same set isn't reported again, and a changed health
    // is.
    &[
        FIRST_31,
        LAST,
        ([3, 3], 6, 0, None),
        ([3, 3], 5, 0, None),
        ([3, 3], 5, 1, Some((2, 1))),
    ],
    // All almanacs for another time are another set, which comes with the last of them.
    &[
        FIRST_31,
        LAST,
        ([1, 31], 6, 0, None),
        ([32, 32], 6, 0, Some((31, 0))),
    ],
    // An almanac of no satellite from 1 to 32, which no subframe holds, is reported and changes
    // nothing.
    &[
        FIRST_31,
        ([-1, 0], 5, 1, None),
        ([33, 33], 5, 1, None),
        ([64, 64], 5, 1, None),
        ([i64::MIN, i64::MIN], 5, 1, None),
        ([i64::MAX, i64::MAX], 5, 1, None),
        LAST,
        ([-1, 0], 6, 1, None),
        ([33, 33], 6, 1, None),
        ([64, 64], 6, 1, None),
        ([i64::MIN, i64::MIN], 6, 1, None),
        ([i64::MAX, i64::MAX], 6, 1, None),
        ([32, 32], 5, 0, None),
    ],
];

#[test]
fn almanac_sets() {
    let rt = HostRuntime;
    for steps in &COURSES {
        follow(&rt, &mut DataSets::new(), steps);
    }
}

/// The set again and again, with one health that changes and changes back.
static CHANGING: [Step; 6] = [
    FIRST_31,
    LAST,
    ([32, 32], 5, 63, Some((31, 63))),
    ([32, 32], 5, 63, None),
    ([32, 32], 5, 0, Some((31, 0))),
    ([32, 32], 5, 0, None),
];

static DRIFTING: Page = Page::Almanac([1, 7, 0, 5, 0, 0, 0, 0, 0, 0, 0, 0, -1]);

const WELL: AlmanacSet = AlmanacSet {
    toa: 5,
    health: [0; 32],
};

// A set is compared with the one that was reported last: a health that changes and changes back
// makes two more. So does a number that the set doesn't show.
#[test]
fn changes_and_back() {
    let rt = HostRuntime;
    let rt = &rt;
    let mut sets = DataSets::new();
    follow(rt, &mut sets, &CHANGING);
    assert_set(rt, &mut sets, &DRIFTING, Some(WELL));
}

/// Asserts what the almanacs of each step make reported.
fn follow(rt: &impl Abort, sets: &mut DataSets, steps: &[Step]) {
    for step in steps {
        assert_step(rt, sets, step);
    }
}

/// Asserts what the almanacs of a step make reported.
fn assert_step(rt: &impl Abort, sets: &mut DataSets, step: &Step) {
    let ([first, last], toa, health, sick) = *step;
    let set = set_of(rt, toa, sick);
    for sv in first..=last {
        let told = if sv == last { set } else { None };
        assert_told(rt, sets, [sv, toa, health], told);
    }
}

/// The set of a time whose healths are 0, but for the one at this place.
fn set_of(rt: &impl Abort, toa: i64, sick: Option<(usize, i64)>) -> Option<AlmanacSet> {
    let (place, value) = sick?;
    assert_that(rt, place < 32);
    let mut health = [0; 32];
    health[place] = value;
    Some(AlmanacSet { toa, health })
}

// Whichever almanac is missing, the others make no set, however often they come.
#[test]
fn one_missing() {
    let rt = HostRuntime;
    for missing in 1..=32i64 {
        let mut sets = DataSets::new();
        for sv in 1..=64i64 {
            assert_not_last(&rt, &mut sets, sv % 32 + 1, missing);
        }
        assert_told(&rt, &mut sets, [missing, 5, 0], Some(WELL));
    }
}

/// Asserts that an almanac makes no set, but for the missing one, which isn't taken.
fn assert_not_last(rt: &impl Abort, sets: &mut DataSets, sv: i64, missing: i64) {
    if sv != missing {
        assert_told(rt, sets, [sv, 5, 0], None);
    }
}

// Pages of other kinds leave the almanacs as they are, and bring no set of them.
#[test]
fn between_other_pages() {
    let rt = HostRuntime;
    let rt = &rt;
    let mut sets = DataSets::new();
    for sv in 1..=31i64 {
        assert_told(rt, &mut sets, [sv, 5, 0], None);
        assert_set(rt, &mut sets, &Page::Utc([sv; 18]), None);
        assert_set(rt, &mut sets, &Page::Clock([sv; 11]), None);
    }
    assert_told(rt, &mut sets, [32, 5, 0], Some(WELL));
    assert_set(rt, &mut sets, &Page::Health([1; 28]), None);
}

/// Asserts that the almanac of a satellite with a time of applicability and a health, whose other
/// numbers are 0, is reported, and makes this set.
fn assert_told(
    rt: &impl Abort,
    sets: &mut DataSets,
    [sv, toa, health]: [i64; 3],
    set: Option<AlmanacSet>,
) {
    let numbers = [0, sv, 0, toa, 0, 0, health, 0, 0, 0, 0, 0, 0];
    let page = Some(Report::Alm(numbers));
    let found = sets.take(&Page::Almanac(numbers));
    assert_same_at(rt, (sv, toa, health), found, Reports { page, set });
}

/// Asserts which set of almanacs a page brings.
fn assert_set(rt: &impl Abort, sets: &mut DataSets, page: &Page, expected: Option<AlmanacSet>) {
    assert_same_at(rt, page, sets.take(page).set, expected);
}
