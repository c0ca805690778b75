// Made by tools/rust of crates/version/src/lib.rt: change that.
//! The version of this repository. Programs, packages and manual pages have it in common.

/// The version, as `1.0.0`. The first number grows where a line that was printed, or a script that
/// was taken, comes out otherwise; the second where something new is understood or printed.
pub const VERSION: &str = "1.0.0";
