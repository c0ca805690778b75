// Made by tools/rust of crates/assertions/src/lib.rt: change that.
//! Assertions of tests: what was found is what was expected.
//!
//! The prover follows a comparison and how both values would be printed anew in each function with
//! an `assert_eq!`. Here the comparison is a call, which is proved once for values of any type, and
//! what it found is printed as its error. No function of a library may end the program, so each
//! crate of tests has a module `asserted`, whose functions do so where there is an error.

use crate::kit::std::AnyDrop as Drop;
use crate::kit::std::fmt::Debug;

/// Two values that differ.
#[derive(Debug)]
pub struct Difference<T> {
    pub found: T,
    pub expected: T,
}

/// Two values that differ, and the one of several places at which they do.
#[derive(Debug)]
pub struct DifferenceAt<P, T> {
    pub place: P,
    pub found: T,
    pub expected: T,
}

/// Compares two values.
///
/// # Errors
///
/// Both values, where they differ.
pub fn same<T: PartialEq + Drop>(found: T, expected: T) -> Result<(), Difference<T>> {
    if found == expected {
        Ok(())
    } else {
        Err(Difference { found, expected })
    }
}

/// Compares two values at one of several places.
///
/// # Errors
///
/// The place and both values, where these differ.
pub fn same_at<P: Drop, T: PartialEq + Drop>(
    place: P,
    found: T,
    expected: T,
) -> Result<(), DifferenceAt<P, T>> {
    if found == expected {
        Ok(())
    } else {
        Err(DifferenceAt {
            place,
            found,
            expected,
        })
    }
}
