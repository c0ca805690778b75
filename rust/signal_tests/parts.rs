// Made by tools/rust of crates/signal_tests/src/parts.rt: change that.
//! Parts of what tests set up, and samples that they see.

use crate::signal_tests::asserted::{assert_same, assert_same_at};
use crate::ca_codes::Prn;
use crate::oscillators::HalfChip;
use crate::sample_planes::Planes;
use crate::kit::std::process::Abort;

/// The satellite of a number, 1 to 32.
pub fn satellite(rt: &impl Abort, number: u8) -> Prn {
    Prn::new(number).expect((rt, "no such satellite").1)
}

/// The half chip of a number, 0 to 2,045.
pub fn half_chip(rt: &impl Abort, number: u16) -> HalfChip {
    HalfChip::new(number).expect((rt, "no such half chip").1)
}

/// Asserts how many samples there are, and their parts in phase; those in quadrature are 0.
pub fn assert_samples(rt: &impl Abort, planes: &Planes, expected: &[i8]) {
    assert_same(rt, planes.len(), expected.len());
    for i in 0..planes.len().min(expected.len()) {
        let found = (planes.value(i), planes.value_q(i));
        assert_same_at(rt, i, found, (expected[i], 0));
    }
}
