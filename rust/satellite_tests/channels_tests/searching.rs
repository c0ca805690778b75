// Made by tools/rust of crates/satellite_tests/src/channels_tests/searching.rt: change that.
//! A satellite that is searched for, and tracked from the due time on.

use crate::kit::std::HostRuntime;
use super::settings;
use crate::satellite_tests::asserted::{assert_same, assert_same_at, assert_that};
use crate::acquisition::{Cell, Plan, SearchRoom};
use crate::ca_codes::{CodeBook, Prn};
use crate::channels::{Followed, Searched};
use crate::made_signals::code_file;
use crate::oscillators::HalfChip;
use crate::sample_planes::{Format, NumberedSamples, PackedSamples};
use crate::kit::std::process::Abort;

/// The file of a code, and zeros up to one run after the due time.
fn padded() -> [u8; 1_408] {
    let mut bytes = [0; 1_408];
    let file = code_file();
    bytes[..file.len()].copy_from_slice(&file);
    bytes
}

/// A search for satellite 1 at 0 Hz, over one period of its code.
fn plan(rt: &impl Abort, threshold: u32) -> Plan {
    let prn = Prn::new(1).expect((rt, "no such satellite").1);
    Plan::new(prn, 0, 0, 1, threshold).expect((rt, "no such search").1)
}

/// The cell that the search is to name.
fn named(rt: &impl Abort) -> Cell {
    Cell {
        bin: 0,
        half: HalfChip::new(2).expect((rt, "no such half chip").1),
        power: 20_930_580,
        found: true,
    }
}

/// Asserts that a satellite that was found is tracked without a shift from sample 10,232 on: of its
/// code 2,044 samples are left.
fn assert_found(rt: &impl Abort, tracked: &Followed) {
    let shift = tracked.tracking().expect((rt, "no loops").1).v();
    let told = (
        tracked.prn().get(),
        tracked.dumps(),
        tracked.next_dump(),
        shift,
    );
    assert_same(rt, told, (1, 0, 12_276, 0));
}

/// How far samples are taken, how many cells are done then, and with how many samples the next one
/// is.
static STEPS: [(u64, u64, u64); 5] = [
    (3, 0, 2_052),
    (2_051, 0, 2_052),
    (2_052, 1, 2_056),
    (2_055, 1, 2_056),
    (10_231, 2_045, 10_232),
];

// The dwell is samples 2 to 2,047, and there are 2,046 cells: the answer is due at 2,048 + 8,184.
// The code is then 10,230 samples, or five codes of 2,046, from half chip 2, where it was.
#[test]
fn one_cell_with_four_samples() {
    let rt = HostRuntime;
    let rt = &rt;
    let bytes = padded();
    let source = NumberedSamples::new(PackedSamples::new(Format::Real1, &bytes), 0);
    let settings = settings(rt, 2_046_000, 0, Format::Real1);
    let room = SearchRoom::new(rt.alloc()).expect((rt, "no memory").1);
    let mut search = Searched::start(&settings, plan(rt, 10), 2, room);
    let begun = (search.prn().get(), search.cells(), search.due());
    assert_same(rt, begun, (1, 2_046, 10_232));
    let mut book = CodeBook::new();
    for &(to, done, next) in &STEPS {
        let answer = search.take(to, &source, &mut book);
        assert_same_at(
            rt,
            to,
            (search.done(), search.next_cell(), answer),
            (done, next, None),
        );
    }
    assert_same(rt, search.take(10_240, &source, &mut book), Some(named(rt)));
    assert_found(rt, &search.follow(&named(rt)).expect((rt, "no signal").1));
    let _ = search.into_room();
}

// No cell has more power than another where the samples are all alike, so that the mean is what
// each has, and a threshold above it isn't met.
#[test]
fn nothing_found_is_not_followed() {
    let rt = HostRuntime;
    let rt = &rt;
    let bytes = [0; 1_280];
    let settings = settings(rt, 2_046_000, 0, Format::Real1);
    let plan = plan(rt, 11);
    let source = NumberedSamples::new(PackedSamples::new(Format::Real1, &bytes), 0);
    let room = SearchRoom::new(rt.alloc()).expect((rt, "no memory").1);
    let mut search = Searched::start(&settings, plan, 0, room);
    assert_that(
        rt,
        search.take(10_229, &source, &mut CodeBook::new()).is_none(),
    );
    let cell = search.take(10_240, &source, &mut CodeBook::new());
    let cell = cell.expect((rt, "no answer").1);
    assert_same(
        rt,
        (search.due(), cell.found, cell.power),
        (10_230, false, 20),
    );
    assert_that(rt, search.follow(&cell).is_none());
}
