// Made by tools/rust of crates/satellite_tests/src/lib.rt: change that.
//! Tests of the crates of one satellite: of its message's bits, words, subframes, pages and sets,
//! and of its search and tracking. The tests of a crate stand in a module named after it, over what
//! the crate makes public.

#[cfg(test)]
mod almanacs;
#[cfg(test)]
mod asserted;
#[cfg(test)]
mod bit_sync_tests;
#[cfg(test)]
mod channels_tests;
#[cfg(test)]
mod data_sets_tests;
#[cfg(test)]
mod frame_sync_tests;
#[cfg(test)]
mod nav_message_tests;
#[cfg(test)]
mod nav_parity_tests;
#[cfg(test)]
mod sent;
#[cfg(test)]
mod subframes_tests;
#[cfg(test)]
mod tracking_loops_tests;
