// Made by tools/rust of crates/bank_tests/src/asserted.rt: change that.
//! The assertions of these tests. Each is a call, which the prover follows no further. As plain
//! Rust one that fails names the line of that call.

use crate::kit::std::AnyDrop as Drop;
use crate::kit::std::panic;
use crate::assertions::{same, same_at};
use crate::kit::std::fmt::Debug;
use crate::kit::std::process::Abort;

/// Asserts that two values are the same. It ends the program where they differ.
#[track_caller]
pub fn assert_same<T: PartialEq + Debug + Drop>(rt: &impl Abort, found: T, expected: T) {
    same(found, expected).expect((rt, "not the same").1)
}

/// Asserts that two values are the same at a place. It ends the program where they differ.
#[track_caller]
pub fn assert_same_at<P: Debug + Drop, T: PartialEq + Debug + Drop>(
    rt: &impl Abort,
    place: P,
    found: T,
    expected: T,
) {
    same_at(place, found, expected).expect((rt, "not the same").1)
}

/// Asserts a condition, which is then known. It ends the program where that isn't so.
#[track_caller]
pub fn assert_that(rt: &impl Abort, condition: bool) {
    if !condition {
        panic!(*rt; "assertion failed")
    }
}
