// Made by tools/rust of crates/satellite_tests/src/data_sets_tests.rt: change that.
//! Reports of pages whose numbers are known. What is expected was worked out by hand from the
//! rules.

use crate::kit::std::HostRuntime;

mod almanac_sets;
mod values;

use crate::satellite_tests::asserted::{assert_same, assert_same_at};
use crate::satellite_tests::sent::subframe_from;
use crate::data_sets::{DataSets, Report};
use crate::kit::std::process::Abort;
use crate::subframes::Page;

// Where the issues of data stand among the 31 numbers of a set: value 4 of the 11 of subframe 1,
// value 0 of the 11 of subframe 2, and value 7 of the 9 of subframe 3.
const IODC: usize = 4;

const IODE: usize = 11;

const IODE3: usize = 11 + 11 + 7;

/// A page of an issue whose other numbers are 0.
enum Issue {
    Clock(i64),
    Eph2(i64),
    Eph3(i64),
}

/// A page, and where it makes a set reported, the issues of the clock page and of the two others.
type Row = (Issue, Option<[i64; 2]>);

static COURSES: [&[Row]; 3] = [
    // Three pages are a set where their issues match.
    &[
        (Issue::Clock(7), None),
        (Issue::Eph2(7), None),
        (Issue::Eph3(8), None),
        (Issue::Eph2(8), None),
        (Issue::Clock(8), Some([8, 8])),
        (Issue::Clock(8), None),
    ],
    // A set is compared with the one reported last, and not with those before: one issue, another
    // and the first again are three reports.
    &[
        (Issue::Clock(7), None),
        (Issue::Eph2(7), None),
        (Issue::Eph3(7), Some([7, 7])),
        (Issue::Eph2(7), None),
        (Issue::Clock(8), None),
        (Issue::Eph2(8), None),
        (Issue::Eph3(8), Some([8, 8])),
        (Issue::Eph2(8), None),
        (Issue::Clock(7), None),
        (Issue::Eph2(7), None),
        (Issue::Eph3(7), Some([7, 7])),
        (Issue::Eph2(7), None),
    ],
    // The clock's issue has ten bits, of which the low eight decide: 263 is 256 + 7. The high two
    // are numbers of the set like others.
    &[
        (Issue::Eph3(7), None),
        (Issue::Eph2(7), None),
        (Issue::Clock(263), Some([263, 7])),
        (Issue::Clock(7), Some([7, 7])),
        (Issue::Clock(775), Some([775, 7])),
        (Issue::Clock(776), None),
        (Issue::Clock(775), None),
    ],
];

#[test]
fn issues_decide() {
    let rt = HostRuntime;
    for rows in &COURSES {
        assert_issues(&rt, &mut DataSets::new(), rows);
    }
}

/// The first two pages of a set.
static FIRST_TWO: [Row; 2] = [(Issue::Clock(7), None), (Issue::Eph2(7), None)];

/// The third of them.
static THIRD: [Row; 1] = [(Issue::Eph3(7), Some([7, 7]))];

/// The third of them again.
static AGAIN: [Row; 1] = [(Issue::Eph3(7), None)];

// The subframe 3 whose word 5 is missing makes no page, so that there is nothing to take.
#[test]
fn incomplete_page() {
    let rt = HostRuntime;
    let rt = &rt;
    let zero = Some(0);
    let incomplete = subframe_from(rt, 0x8c, [zero, zero, None, zero, zero, zero, zero, zero]);
    assert_same(rt, Page::read(&incomplete), None);
    // Word 10 begins with the issue of data: bits 271 to 278.
    let last = Some(0x07_0000);
    let page = page(rt, 0x8c, [zero, zero, zero, zero, zero, zero, zero, last]);
    let mut sets = DataSets::new();
    assert_issues(rt, &mut sets, &FIRST_TWO);
    assert_report(rt, &mut sets, &page, set_of(Some([7, 7])));
    assert_report(rt, &mut sets, &page, None);
}

// Three subframes of zeros are of one issue, 0: the set has 31 zeros.
#[test]
fn zero_subframes() {
    let rt = HostRuntime;
    let mut sets = DataSets::new();
    for (handover, set) in [(0x84, None), (0x88, None), (0x8c, Some([0, 0]))] {
        let page = page(&rt, handover, [Some(0); 8]);
        assert_report(&rt, &mut sets, &page, set_of(set));
    }
}

// The numbers of an issue that change, its own number apart, make a new set with the one page that
// brings them.
#[test]
fn changed_values() {
    let rt = HostRuntime;
    let rt = &rt;
    let mut sets = DataSets::new();
    assert_issues(rt, &mut sets, &FIRST_TWO);
    assert_issues(rt, &mut sets, &THIRD);
    assert_changed(rt, &mut sets, 1);
    assert_changed(rt, &mut sets, -1);
    assert_changed(rt, &mut sets, 0);
}

/// Asserts that the page of subframe 2 with this crs makes a set reported, and not again.
fn assert_changed(rt: &impl Abort, sets: &mut DataSets, crs: i64) {
    let changed = Page::Eph2([7, crs, 0, 0, 0, 0, 0, 0, 0, 0, 0]);
    let mut numbers = set_numbers(7, 7);
    numbers[IODE + 1] = crs;
    assert_report(rt, sets, &changed, Some(Report::Eph(numbers)));
    assert_report(rt, sets, &changed, None);
}

/// Three pages, the first of all, and whether they are a set: then the third alone makes something
/// reported, and else none does.
type Three = (Issue, Issue, Issue, bool);

static THREES: [Three; 8] = [
    // Neither of two issues decides alone: the third page has to be of the same.
    (Issue::Eph3(7), Issue::Clock(7), Issue::Eph2(7), true),
    (Issue::Eph3(7), Issue::Clock(8), Issue::Eph2(7), false),
    (Issue::Eph3(7), Issue::Clock(7), Issue::Eph2(8), false),
    (Issue::Eph3(8), Issue::Clock(7), Issue::Eph2(7), false),
    // No subframe holds an issue below zero, but a page made by hand may. -249 is 7 less 256, so
    // its low eight bits are 7; and of pages that hold 0, -5 and 0 the second is of another issue.
    (Issue::Clock(-249), Issue::Eph2(7), Issue::Eph3(7), true),
    (Issue::Clock(0), Issue::Eph2(-5), Issue::Eph3(0), false),
    (Issue::Clock(-1), Issue::Eph2(0), Issue::Eph3(0), false),
    (
        Issue::Clock(-249),
        Issue::Eph2(-249),
        Issue::Eph3(-249),
        false,
    ),
];

#[test]
fn three_pages() {
    let rt = HostRuntime;
    for (first, second, third, is_set) in &THREES {
        let found = are_reported(first, second, third);
        assert_same(&rt, found, [false, false, *is_set]);
    }
}

const ALMANAC: [i64; 13] = [1, 5, 0, 7, -1, 0, 63, 0, 0, 0, -8_388_608, 0, 1];

const UTC: [i64; 18] = [1, 56, -1, 2, 3, 4, 5, 6, 7, 8, 9, 10, 11, 12, 18, 13, 7, 18];

const HEALTH: [i64; 28] = [
    1, 51, 7, 8, 0, 0, 0, 63, 0, 0, 0, 0, 0, 0, 0, 0, 0, 0, 0, 0, 0, 0, 0, 0, 0, 0, 0, 1,
];

const TEXT: [u8; 22] = *b"GPS L1 C/A TEST, 22 CH";

static OTHERS: [(Page, Report); 4] = [
    (Page::Almanac(ALMANAC), Report::Alm(ALMANAC)),
    (Page::Utc(UTC), Report::Utc(UTC)),
    (Page::Health(HEALTH), Report::Hlt(HEALTH)),
    (Page::Message(TEXT), Report::Msg(TEXT)),
];

// The other pages are reported each time as they are, and a set that is coming together doesn't
// mind them.
#[test]
fn other_pages_each_time() {
    let rt = HostRuntime;
    let rt = &rt;
    let mut sets = DataSets::new();
    assert_issues(rt, &mut sets, &FIRST_TWO);
    assert_reports(rt, &mut sets, &OTHERS);
    assert_reports(rt, &mut sets, &OTHERS);
    assert_issues(rt, &mut sets, &THIRD);
    assert_report(
        rt,
        &mut sets,
        &Page::Almanac(ALMANAC),
        Some(Report::Alm(ALMANAC)),
    );
    assert_issues(rt, &mut sets, &AGAIN);
}

/// Asserts what each of these pages, one after another, makes reported.
fn assert_issues(rt: &impl Abort, sets: &mut DataSets, rows: &[Row]) {
    for (issue, set) in rows {
        assert_report(rt, sets, &page_of(issue), set_of(*set));
    }
}

/// Asserts what each of these pages, one after another, makes reported.
fn assert_reports(rt: &impl Abort, sets: &mut DataSets, rows: &[(Page, Report)]) {
    for (page, report) in rows {
        assert_report(rt, sets, page, Some(*report));
    }
}

/// Asserts what a page makes reported.
fn assert_report(rt: &impl Abort, sets: &mut DataSets, page: &Page, expected: Option<Report>) {
    assert_same_at(rt, page, sets.take(page).page, expected);
}

/// Whether each of three pages, the first of all, makes something reported.
fn are_reported(first: &Issue, second: &Issue, third: &Issue) -> [bool; 3] {
    let mut sets = DataSets::new();
    [
        sets.take(&page_of(first)).page.is_some(),
        sets.take(&page_of(second)).page.is_some(),
        sets.take(&page_of(third)).page.is_some(),
    ]
}

fn page_of(issue: &Issue) -> Page {
    match issue {
        Issue::Clock(issue) => Page::Clock([0, 0, 0, 0, *issue, 0, 0, 0, 0, 0, 0]),
        Issue::Eph2(issue) => Page::Eph2([*issue, 0, 0, 0, 0, 0, 0, 0, 0, 0, 0]),
        Issue::Eph3(issue) => Page::Eph3([0, 0, 0, 0, 0, 0, 0, *issue, 0]),
    }
}

/// The report of a clock page of the first issue with a subframe 2 and a subframe 3 of the second.
fn set_of(issues: Option<[i64; 2]>) -> Option<Report> {
    let [clock, issue] = issues?;
    Some(Report::Eph(set_numbers(clock, issue)))
}

fn set_numbers(clock: i64, issue: i64) -> [i64; 31] {
    let mut numbers = [0; 31];
    numbers[IODC] = clock;
    numbers[IODE] = issue;
    numbers[IODE3] = issue;
    numbers
}

/// The page of the subframe with this word 2 and these words from word 3 on.
fn page(rt: &impl Abort, handover: u32, words: [Option<u32>; 8]) -> Page {
    Page::read(&subframe_from(rt, handover, words)).expect((rt, "a page").1)
}
