// Made by tools/rust of crates/programs_tests/src/lib.rt: change that.
//! Tests of the crates of both programs, runs of the receiver and recordings that are packed, and
//! of the crate that Rust programs begin with. The tests of a crate stand in a module named after
//! it, over what the crate makes public.

#[cfg(test)]
mod asserted;
#[cfg(test)]
mod choices;
#[cfg(test)]
mod packer_tests;
#[cfg(test)]
mod receiver_tests;
#[cfg(test)]
mod recordings_tests;
#[cfg(test)]
mod seldomplough_tests;
