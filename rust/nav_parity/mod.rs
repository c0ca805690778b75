// Made by tools/rust of crates/nav_parity/src/lib.rt: change that.
//! The parity of the words of GPS navigation data (IS-GPS-200, section 20.3.5).
//!
//! [`check`] takes a word and the last two bits of the word before, and gives the 24 bits of data
//! exactly where the six parity equations hold; [`encode`] gives the one word that passes with such
//! bits and has these data. Both are promised against the table of the standard, and beside them
//! stand laws on all words: what passes does not pass any more with one, two or three bits changed,
//! and a receiver that sees every bit inverted reads the same.
//!
#![cfg_attr(feature = "internals", doc = "```")]
#![cfg_attr(not(feature = "internals"), doc = "```ignore")]
//! # fn main() -> Result<(), std::boxed::Box<dyn core::error::Error>> {
//! use seldomplough::internals::nav_parity::{check, encode};
//!
//! // The word after one whose last two bits are 0.
//! let word = encode(0x8b_0000, 0);
//! let data = check(word, 0);
//! # Ok(())
//! # }
//! ```

mod laws;
mod parity;

pub use laws::{
    check_of_encode, encode_of_check, inversion_is_harmless, three_errors_are_detected,
};
pub use parity::{DATA_LIMIT, PRIOR_LIMIT, WORD_LIMIT, check, encode};
