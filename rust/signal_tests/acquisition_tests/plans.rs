// Made by tools/rust of crates/signal_tests/src/acquisition_tests/plans.rt: change that.
//! Plans at the ends of their ranges, and the shifts of their cells.

use crate::kit::std::HostRuntime;
use crate::signal_tests::asserted::{assert_same, assert_same_at, assert_shown};
use crate::signal_tests::parts::{half_chip, satellite};
use crate::acquisition::{Cell, Plan, PlanFault, Signal};
use crate::oscillators::HalfChip;
use crate::kit::std::process::Abort;

/// Centres, bins, dwells and thresholds at the ends of their ranges, and what is wrong with them.
static LIMITS: [(i32, u32, u32, u32, Option<PlanFault>); 13] = [
    (-6_001, 0, 1, 1, Some(PlanFault::Centre)),
    (-6_000, 0, 1, 1, None),
    (6_000, 40, 10, 1_000, None),
    (6_001, 40, 10, 1_000, Some(PlanFault::Centre)),
    (i32::MIN, 0, 1, 1, Some(PlanFault::Centre)),
    (i32::MAX, 0, 1, 1, Some(PlanFault::Centre)),
    (0, 41, 1, 1, Some(PlanFault::Bins)),
    (0, u32::MAX, 0, 0, Some(PlanFault::Bins)),
    (0, 0, 0, 1, Some(PlanFault::Dwell)),
    (0, 0, 11, 1_001, Some(PlanFault::Dwell)),
    (0, 0, 1, 0, Some(PlanFault::Threshold)),
    (0, 0, 1, 1_001, Some(PlanFault::Threshold)),
    (6_001, 41, 11, 1_001, Some(PlanFault::Centre)),
];

#[test]
fn stated_limits() {
    let rt = HostRuntime;
    let prn = satellite(&rt, 32);
    for &(centre, bins, dwell, threshold, fault) in &LIMITS {
        let found = Plan::new(prn, centre, bins, dwell, threshold).err();
        assert_same_at(&rt, (centre, bins, dwell, threshold), found, fault);
    }
}

/// What the faults say.
static TEXTS: [(PlanFault, &str); 4] = [
    (PlanFault::Centre, "the centre is from -6000 to 6000 Hz"),
    (PlanFault::Bins, "there are at most 40 bins to each side"),
    (
        PlanFault::Dwell,
        "the dwell is from 1 to 10 periods of the code",
    ),
    (
        PlanFault::Threshold,
        "the threshold is from 1 to 1000 tenths of the mean power",
    ),
];

#[test]
fn faults_are_named() {
    let rt = HostRuntime;
    for &(fault, text) in &TEXTS {
        assert_shown(&rt, fault, text);
    }
}

/// A plan for satellite 9, over a dwell of three periods.
fn new_plan(rt: &impl Abort, centre: i32, bins: u32) -> Plan {
    Plan::new(satellite(rt, 9), centre, bins, 3, 25).expect((rt, "a plan").1)
}

/// How many bins a plan has to each side, and how many cells.
static CELLS: [(u32, u64); 3] = [(0, 2_046), (1, 6_138), (40, 165_726)];

#[test]
fn plans_tell_their_parts() {
    let rt = HostRuntime;
    let rt = &rt;
    for &(bins, cells) in &CELLS {
        let plan = new_plan(rt, -5_999, bins);
        let signal = (plan.prn().get(), plan.centre(), plan.bins());
        let told = (signal, plan.cells(), plan.dwell(), plan.threshold());
        assert_same(rt, told, ((9, -5_999, bins), cells, 3, 25));
    }
}

/// Centres, bins to each side, and the bin of a cell, with the shift that it has.
static SHIFTS: [(i32, u32, i32, Option<i32>); 8] = [
    (6_000, 40, 40, Some(16_000)),
    (-6_000, 40, -40, Some(-16_000)),
    (-5_999, 3, 2, Some(-5_499)),
    (-5_999, 3, -3, Some(-6_749)),
    (-5_999, 3, 4, None),
    (-5_999, 3, -4, None),
    (0, 40, i32::MIN, None),
    (0, 40, i32::MAX, None),
];

/// The shift of a signal of satellite 9 at a half chip.
fn shift_of(rt: &impl Abort, signal: Option<Signal>, half: HalfChip) -> Option<i32> {
    match signal {
        Some(signal) => {
            assert_same(rt, (signal.prn.get(), signal.half), (9, half));
            Some(signal.doppler.get())
        }
        None => None,
    }
}

// Bins are 250 Hz wide.
#[test]
fn signals_of_cells() {
    let rt = HostRuntime;
    let rt = &rt;
    let half = half_chip(rt, 2_045);
    for &(centre, bins, bin, shift) in &SHIFTS {
        let cell = Cell {
            bin,
            half,
            power: 0,
            found: false,
        };
        let signal = new_plan(rt, centre, bins).signal(&cell);
        assert_same_at(rt, (centre, bins, bin), shift_of(rt, signal, half), shift);
    }
}
