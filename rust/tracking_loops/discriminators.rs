// Made by tools/rust of crates/tracking_loops/src/discriminators.rt: change that.
//! What a dump says of the frequency, the phase and the code.

use crate::lane_correlator::Counts;

/// The units of an error: it is a quotient from -1 to 1, times this number.
const UNITS: i64 = 4096;

/// The greatest size of a product of two sums: `MOST_SUM` times itself.
const MOST_PRODUCT_OF_SUMS: u64 = 1 << 36;

/// The greatest size of a sum of two products.
const MOST_POWER_OF_SUMS: u64 = 2 * MOST_PRODUCT_OF_SUMS;

/// The most that the sizes of two such sums add up to.
const MOST_TWICE_POWER: u64 = 2 * MOST_POWER_OF_SUMS;

/// The turn of the carrier from one dump to the next.
pub fn frequency_error(before: &Counts, counts: &Counts) -> i64 {
    let cross = cross(before, counts);
    let dot = dot(before, counts);
    let size = cross.unsigned_abs() + dot.unsigned_abs();
    ratio(signed(cross, dot), size)
}

/// How far the prompt sum is turned away from the in-phase axis.
pub fn phase_error(counts: &Counts) -> i64 {
    let in_phase = i64::from(counts.ip);
    let quadrature = i64::from(counts.qp);
    let size = in_phase.unsigned_abs() + quadrature.unsigned_abs();
    ratio(signed(quadrature, in_phase), size)
}

/// How much more power the early chips have than the late ones.
pub fn code_error(counts: &Counts) -> i64 {
    let early = power(counts.ie, counts.qe);
    let late = power(counts.il, counts.ql);
    let size = early.unsigned_abs() + late.unsigned_abs();
    ratio(early - late, size)
}

/// What part of `size` `a` is, in units, rounded toward minus infinity. Of a size of 0 it is 0.
fn ratio(a: i64, size: u64) -> i64 {
    (UNITS * a).div_euclid(size.max(1) as i64)
}

/// `a`, or `-a` where `by` is below zero.
fn signed(a: i64, by: i64) -> i64 {
    if by < 0 { -a } else { a }
}

/// The cross product of two prompt sums.
fn cross(before: &Counts, counts: &Counts) -> i64 {
    product(before.ip, counts.qp) - product(counts.ip, before.qp)
}

/// The scalar product of two prompt sums.
fn dot(before: &Counts, counts: &Counts) -> i64 {
    product(before.ip, counts.ip) + product(before.qp, counts.qp)
}

/// The power of a sum with these parts.
fn power(in_phase: i32, quadrature: i32) -> i64 {
    product(in_phase, in_phase) + product(quadrature, quadrature)
}

fn product(a: i32, b: i32) -> i64 {
    i64::from(a) * i64::from(b)
}
