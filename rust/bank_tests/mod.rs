// Made by tools/rust of crates/bank_tests/src/lib.rt: change that.
//! Tests of the crates of the bank: slots of all clients, scripts, and what clients get as lines.
//! The tests of a crate stand in a module named after it, over what the crate makes public.

#[cfg(test)]
mod asserted;
#[cfg(test)]
mod channel_slots_tests;
#[cfg(test)]
mod client_commands_tests;
#[cfg(test)]
mod commands;
#[cfg(test)]
mod printed_lines_tests;
