// Made by tools/rust of crates/signal_tests/src/acquisition_tests.rt: change that.
//! Plans at the ends of their ranges, a search that is left off, and the room of another search.
//! `tools/runs-check` has cells of other searches, over the built receiver.

use crate::kit::std::HostRuntime;

mod plans;

use crate::signal_tests::asserted::{assert_same, assert_same_at};
use crate::signal_tests::parts::{half_chip, satellite};
use crate::acquisition::*;
use crate::ca_codes::CodeBook;
use crate::made_signals::code_file;
use crate::oscillators::Settings;
use crate::sample_planes::{Format, NumberedSamples, PackedSamples};
use crate::kit::std::alloc::{Alloc, Global};
use crate::kit::std::process::Abort;

/// What a search names that does so many cells at a call.
fn search_in_steps(mut search: Search, source: &NumberedSamples, cells: u64) -> Option<Cell> {
    let mut book = CodeBook::new();
    for _ in 0..search.plan().cells() {
        if search.result().is_none() {
            search.advance(cells, source, &mut book);
        }
    }
    search.result()
}

/// Room for a search.
fn new_room(rt: &(impl Abort + Alloc<A = Global>)) -> SearchRoom {
    SearchRoom::new(rt.alloc()).expect((rt, "memory for a search").1)
}

/// A plan over a dwell of one period, with no bin beside that at 0 Hz.
fn short_plan(rt: &impl Abort) -> Plan {
    Plan::new(satellite(rt, 1), 0, 0, 1, 10).expect((rt, "a plan").1)
}

/// The settings of real samples of one bit, without an intermediate frequency.
fn real_settings(rt: &impl Abort) -> Settings {
    Settings::new(2_046_000, 0, Format::Real1).expect((rt, "a rate").1)
}

/// How many cells of another search were done in the room, and how many are done at a call.
static ROOMS: [(u64, u64); 5] = [(0, 1), (1, 7), (64, 700), (2_045, 700), (6_138, u64::MAX)];

/// The cell that a search over the file of a code names, from its third sample on. At half chip 2
/// the replica is the code from there on, so the products are all 2 in phase and -1 in quadrature:
/// 4,092 and -2,046, whose squares add up to 20,930,580.
fn cell_of_code_file(rt: &impl Abort) -> Cell {
    Cell {
        bin: 0,
        half: half_chip(rt, 2),
        power: 20_930_580,
        found: true,
    }
}

// The room comes with the powers of another satellite: of none of its cells, of one, of so many as
// are summed up at once, of all but one of a bin, and of all.
#[test]
fn room_for_another_search() {
    let rt = HostRuntime;
    let rt = &rt;
    let bytes = code_file();
    let settings = real_settings(rt);
    let source = NumberedSamples::new(PackedSamples::new(Format::Real1, &bytes), 0);
    let other = Plan::new(satellite(rt, 2), 500, 1, 1, 10).expect((rt, "another plan").1);
    for &(done, cells) in &ROOMS {
        let mut left_off = Search::new(other, &settings, 2, new_room(rt));
        left_off.advance(done, &source, &mut CodeBook::new());
        assert_same(rt, left_off.done(), done);
        let search = Search::new(short_plan(rt), &settings, 2, left_off.into_room());
        let found = search_in_steps(search, &source, cells);
        assert_same_at(rt, cells, found, Some(cell_of_code_file(rt)));
    }
}

/// How many cells more a search does, and how many are done then.
static STEPS: [(u64, u64); 5] = [
    (0, 0),
    (7, 7),
    (2_038, 2_045),
    (u64::MAX, 2_046),
    (u64::MAX, 2_046),
];

/// Asserts how many of 2,046 cells are done as a search goes on, and that it has a result with the
/// last alone, and keeps it.
fn assert_steps(rt: &impl Abort, mut search: Search, source: &NumberedSamples) {
    let mut book = CodeBook::new();
    for &(cells, done) in &STEPS {
        search.advance(cells, source, &mut book);
        let told = (search.due(), search.done(), search.result().is_some());
        // It is due after 2,046 samples of the dwell, from sample 7 on, and 4 for each cell.
        assert_same(rt, told, (10_237, done, done == 2_046));
    }
    let result = search.result();
    search.advance(u64::MAX, source, &mut book);
    assert_same(rt, search.result(), result);
}

#[test]
fn search_is_left_off_and_taken_up() {
    let rt = HostRuntime;
    let rt = &rt;
    let bytes = [0; 256];
    let settings = real_settings(rt);
    let source = NumberedSamples::new(PackedSamples::new(Format::Real1, &bytes), 5);
    let search = Search::new(short_plan(rt), &settings, 7, new_room(rt));
    assert_same(rt, (search.due(), search.done()), (10_237, 0));
    assert_steps(rt, search, &source);
}

/// The powers of the cells of a plan with one bin, over 2,046 samples of a file from sample `start`
/// on.
fn powers_from(rt: &impl Abort, bytes: &[u8; 256], start: u64) -> [u64; BIN_CELLS] {
    let source = NumberedSamples::new(PackedSamples::new(Format::Real1, bytes), 0);
    let (plan, settings) = (short_plan(rt), real_settings(rt));
    powers_of_bin(&plan, &settings, start, 0, &source, &mut CodeBook::new())
}

// The chips of a code add up to -1, and each has two samples: -4 in phase and 2 in quadrature.
#[test]
fn powers_of_equal_cells() {
    let rt = HostRuntime;
    let rt = &rt;
    for power in powers_from(rt, &[0; 256], 0) {
        assert_same(rt, power, 20);
    }
}

// The file of the code has its greatest power where a search finds it.
#[test]
fn powers_of_the_code_file() {
    let rt = HostRuntime;
    let rt = &rt;
    let powers = powers_from(rt, &code_file(), 2);
    assert_same(rt, powers[2], 20_930_580);
    assert_same(
        rt,
        powers.iter().filter(|power| **power >= 20_930_580).count(),
        1,
    );
}
