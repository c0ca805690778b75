// Made by tools/rust of crates/signal_tests/src/lane_correlator_tests.rt: change that.
//! Sums against plain loops, and sums worked out by hand. `tools/runs-check` has more of these,
//! over the built receiver.

use crate::kit::std::HostRuntime;

mod products;

use crate::signal_tests::asserted::assert_same;
use crate::signal_tests::noise::noise_bytes;
use crate::signal_tests::parts::{half_chip, satellite};
use crate::ca_codes::CodeBook;
use crate::lane_correlator::{Counts, replica_sums};
use crate::oscillators::{CarrierOsc, CarrierPlanes, CodeOsc, CodePlanes};
use crate::sample_planes::{Format, Planes, unpack};
use crate::kit::std::process::Abort;

/// The sums with one more sample, whose parts in phase and in quadrature are `sample`.
fn with_sample(
    sums: Counts,
    sample: (i32, i32),
    carrier: (i32, i32),
    chips: (i32, i32, i32),
) -> Counts {
    let i = sample
        .0
        .wrapping_mul(carrier.0)
        .wrapping_add(sample.1.wrapping_mul(carrier.1));
    let q = sample
        .1
        .wrapping_mul(carrier.0)
        .wrapping_sub(sample.0.wrapping_mul(carrier.1));
    Counts {
        ie: sums.ie.wrapping_add(i.wrapping_mul(chips.0)),
        qe: sums.qe.wrapping_add(q.wrapping_mul(chips.0)),
        ip: sums.ip.wrapping_add(i.wrapping_mul(chips.1)),
        qp: sums.qp.wrapping_add(q.wrapping_mul(chips.1)),
        il: sums.il.wrapping_add(i.wrapping_mul(chips.2)),
        ql: sums.ql.wrapping_add(q.wrapping_mul(chips.2)),
    }
}

/// The sums of a plain loop over the samples before each one of a run, and over all of them.
fn plain_sums(samples: &Planes, carrier: &CarrierPlanes, code: &CodePlanes) -> [Counts; 1025] {
    let mut all = [Counts::NONE; 1025];
    let mut sums = Counts::NONE;
    for i in 0..samples.len() {
        sums = with_sample(
            sums,
            (samples.value(i).into(), samples.value_q(i).into()),
            (carrier.cos(i).into(), carrier.sin(i).into()),
            (
                code.early(i).into(),
                code.prompt(i).into(),
                code.late(i).into(),
            ),
        );
        all[i + 1] = sums;
    }
    all
}

/// What the later sums have more than the earlier ones.
fn between(earlier: &Counts, later: &Counts) -> Counts {
    Counts {
        ie: later.ie.wrapping_sub(earlier.ie),
        qe: later.qe.wrapping_sub(earlier.qe),
        ip: later.ip.wrapping_sub(earlier.ip),
        qp: later.qp.wrapping_sub(earlier.qp),
        il: later.il.wrapping_sub(earlier.il),
        ql: later.ql.wrapping_sub(earlier.ql),
    }
}

/// For how many ranges of a run of `len` samples, which begin at sample `lowest` or after it, the
/// sums are those of a plain loop.
fn agreeing(rt: &impl Abort, format: Format, lowest: usize, len: usize) -> u32 {
    let samples = unpack(format, &noise_bytes(), 3, len);
    let plain = plain_sums(
        &samples,
        &carrier_at(0).planes(samples.len()),
        &code_at(rt, 0).planes(samples.len(), &mut CodeBook::new(), satellite(rt, 7)),
    );
    let mut agreeing = 0u32;
    for from in lowest..=samples.len() {
        agreeing = agreeing.wrapping_add(agreeing_from(rt, &samples, &plain, from));
    }
    agreeing
}

/// The carrier at a sample.
fn carrier_at(sample: usize) -> CarrierOsc {
    let mut carrier = CarrierOsc::new(0x2345_6789);
    carrier.advance(sample as u64);
    carrier
}

/// The code at a sample.
fn code_at(rt: &impl Abort, sample: usize) -> CodeOsc {
    let mut code = CodeOsc::new(half_chip(rt, 2_030), 0x6000_0001);
    code.jump(sample as u64);
    code
}

/// For how many ranges of a run that begin at a sample the sums are those of a plain loop.
fn agreeing_from(rt: &impl Abort, samples: &Planes, plain: &[Counts; 1025], from: usize) -> u32 {
    let (carrier, code, prn) = (carrier_at(from), code_at(rt, from), satellite(rt, 7));
    let mut book = CodeBook::new();
    let mut agreeing = 0u32;
    for to in from..=samples.len() {
        let sums = replica_sums(samples, from, to - from, &carrier, &code, &mut book, prn);
        if sums == between(&plain[from], &plain[to]) {
            agreeing = agreeing.wrapping_add(1);
        }
    }
    agreeing
}

/// As many ranges as there are from <= to <= 200, and 954 <= from <= to <= 1,024.
const SHORT_RANGES: u32 = 202 * 201 / 2;

const LATE_RANGES: u32 = 72 * 71 / 2;

/// Asserts that the sums over all of these ranges are those of a plain loop.
fn assert_agreeing(rt: &impl Abort, format: Format) {
    let ranges = (
        agreeing(rt, format, 0, 200),
        agreeing(rt, format, 954, 1024),
    );
    assert_same(rt, ranges, (SHORT_RANGES, LATE_RANGES));
}

#[test]
fn sums_of_every_packing() {
    let rt = HostRuntime;
    let rt = &rt;
    assert_agreeing(rt, Format::Real1);
    assert_agreeing(rt, Format::Real2);
    assert_agreeing(rt, Format::Iq1);
    assert_agreeing(rt, Format::Iq2);
}

/// The prompt sums over samples of +1, at a quarter of a cycle a sample, with chip 2 of satellite
/// 1, which is 0.
fn quarter_cycles(rt: &impl Abort, count: usize) -> (i32, i32) {
    let samples = unpack(Format::Real1, &[0], 0, count);
    let sums = replica_sums(
        &samples,
        0,
        samples.len(),
        &CarrierOsc::new(1 << 30),
        &CodeOsc::new(half_chip(rt, 4), 0),
        &mut CodeBook::new(),
        satellite(rt, 1),
    );
    (sums.ip, sums.qp)
}

#[test]
fn a_quarter_cycle_a_sample() {
    let rt = HostRuntime;
    let rt = &rt;
    // Cosines 2, -1, -2, 1 and sines 1, 2, -1, -2.
    let sums = [
        quarter_cycles(rt, 0),
        quarter_cycles(rt, 1),
        quarter_cycles(rt, 3),
        quarter_cycles(rt, 4),
    ];
    assert_same(rt, sums, [(0, 0), (2, -1), (-1, -2), (0, 0)]);
}

#[test]
fn counts_add_place_by_place() {
    let rt = HostRuntime;
    let ones = Counts {
        ie: 1,
        qe: 2,
        ip: 3,
        qp: 4,
        il: 5,
        ql: 6,
    };
    let more = Counts {
        ie: 10,
        qe: -20,
        ip: 30,
        qp: -40,
        il: 50,
        ql: -60,
    };
    let sum = Counts {
        ie: 11,
        qe: -18,
        ip: 33,
        qp: -36,
        il: 55,
        ql: -54,
    };
    assert_same(&rt, [ones.add(&more), ones.add(&Counts::NONE)], [sum, ones]);
}
