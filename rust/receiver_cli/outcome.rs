// Made by tools/rust of crates/receiver_cli/src/outcome.rt: change that.
//! What the program comes to.

use crate::kit::clap::Error;

/// What the program comes to, once its run is over or can't begin.
pub enum Outcome {
    /// The program ends with this status, and has reported what went wrong.
    Status(u8),
    /// The program's help or its version was asked for, and is to be shown.
    Help(Error),
}
