// Made by tools/rust of crates/receiver_options/src/lib.rt: change that.
//! The options of the program `receiver`, and what they name. `matches` has the option parser read
//! the words of a command line, and the rest says what the options that it found ask for: the
//! recording's settings, the shares of the slots, and the script files, whose texts `read_scripts`
//! reads. What is found in which words is proved by the parser's own definitions, of the command
//! that the specs define.
//!
#![cfg_attr(feature = "internals", doc = "```")]
#![cfg_attr(not(feature = "internals"), doc = "```ignore")]
//! # fn main() -> Result<(), std::boxed::Box<dyn core::error::Error>> {
//! use seldomplough::kit::std::string::String;
//! use seldomplough::internals::oscillators::Settings;
//! use seldomplough::internals::receiver_options::{matches, settings};
//! use seldomplough::kit::std::alloc::Global;
//!
//! // The settings that words ask for, where the parser finds options and they can be had.
//! fn settings_in(alloc: Global, words: &[String]) -> Option<Settings> {
//!     settings(&matches(alloc, words).ok()?).ok()
//! }
//! # Ok(())
//! # }
//! ```

mod asked;
mod command;
mod fault;
mod script_files;
mod slot_shares;
mod words;

pub use asked::{scripts, settings};
pub use command::matches;
pub use fault::OptionFault;
pub use script_files::{MOST_SCRIPT_BYTES, ScriptFiles, Stored, read_scripts, script_from};
pub use slot_shares::shares;
pub use words::{CommandLine, SystemCommandLine};
