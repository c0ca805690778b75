// Made by tools/rust of crates/client_commands/src/lib.rt: change that.
//! The script of a client: lines of timed commands, read one by one.
//!
//! `Script` gives the entries of a script in order, each a command or the refusal of its line, at
//! its time; then none. They are proved to be the entries of the script's definition, for every
//! list of bytes. Five values that are each in their range are always a plan, so `acquire` has no
//! refusal beyond those of its words. (Scripts are this project's own.)
//!
#![cfg_attr(feature = "internals", doc = "```")]
#![cfg_attr(not(feature = "internals"), doc = "```ignore")]
//! # fn main() -> Result<(), std::boxed::Box<dyn core::error::Error>> {
//! use seldomplough::internals::client_commands::Script;
//!
//! let mut script = Script::new(b"0 hold 0 5 1250 700\n9 halt\n", 4);
//! let (mut commands, mut refusals) = (0, 0);
//! while let Some(timed) = script.next() {
//!     match timed.what {
//!         Ok(_) => commands += 1,
//!         Err(_) => refusals += 1,
//!     }
//! }
//! assert_eq!((commands, refusals), (1, 1));
//! # Ok(())
//! # }
//! ```

mod line;
mod number;
mod plan;
mod refusal;
mod script;
mod signal;
mod verb;
mod words;

pub use refusal::LineRefusal;
pub use script::{Script, Timed};
pub use words::MOST_SHOWN_DUMPS;
