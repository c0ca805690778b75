// Made by tools/rust of crates/ca_codes/src/lib.rt: change that.
//! The C/A codes of GPS satellites 1 to 32 (IS-GPS-200, sections 3.2.1.3 and 3.3.2.3).
//!
//! `Prn` is a satellite's number, and a `CodeBook` gives any chip of any satellite's code, proved
//! to be that of the two shift registers of the standard. The book makes a satellite's 1,023 chips
//! when it is first asked for one of them, and takes no memory.
//!
#![cfg_attr(feature = "internals", doc = "```")]
#![cfg_attr(not(feature = "internals"), doc = "```ignore")]
//! # fn main() -> Result<(), std::boxed::Box<dyn core::error::Error>> {
//! use seldomplough::internals::ca_codes::{CodeBook, Prn};
//!
//! let prn = Prn::new(5).ok_or("no satellite")?;
//! let mut book = CodeBook::new();
//! // The first chip of satellite 5, `true` for 1.
//! let chip = book.chip(prn, 0);
//! # Ok(())
//! # }
//! ```

mod book;
mod registers;
mod satellite;

pub use book::{CODE_CHIPS, CodeBook, TABLE, look_up};
pub use satellite::{LAST_PRN, Prn, PrnFault};
