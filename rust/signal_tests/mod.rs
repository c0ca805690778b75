// Made by tools/rust of crates/signal_tests/src/lib.rt: change that.
//! Tests of the crates of the signal: bits, samples, codes, replicas, sums, a search, and made
//! signals. The tests of a crate stand in a module named after it, over what the crate makes
//! public.

#[cfg(test)]
mod acquisition_tests;
#[cfg(test)]
mod asserted;
#[cfg(test)]
mod bit_planes_tests;
#[cfg(test)]
mod ca_codes_tests;
#[cfg(test)]
mod lane_correlator_tests;
#[cfg(test)]
mod made_signals_tests;
#[cfg(test)]
mod noise;
#[cfg(test)]
mod oscillators_tests;
#[cfg(test)]
mod parts;
#[cfg(test)]
mod sample_history_tests;
#[cfg(test)]
mod sample_planes_tests;
