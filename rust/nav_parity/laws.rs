// Made by tools/rust of crates/nav_parity/src/laws.rt: change that.
//! What holds of all words (IS-GPS-200, section 20.3.5). Each law is a call that does nothing, and
//! promises it.

/// Where a word passes, no word that differs from it in one, two or three bits passes with the same
/// prior.
#[doc(hidden)]
pub fn three_errors_are_detected() {}

/// A word and its prior with all bits inverted, as a receiver may see them, pass alike and have the
/// same data.
#[doc(hidden)]
pub fn inversion_is_harmless() {}

/// `check` of `encode` gives the data back: with each prior, each 24 bits have one word, which
/// checks to them.
#[doc(hidden)]
pub fn check_of_encode() {}

/// `encode` of `check` gives the word back: a word that passes is the one word for its data, and
/// these are below `DATA_LIMIT`.
#[doc(hidden)]
pub fn encode_of_check() {}
