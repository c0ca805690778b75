// Made by tools/rust of crates/sample_planes/src/names.rt: change that.
//! The names of the packings.

use crate::sample_planes::format::Format;

/// The names of all packings.
static NAMES: [&str; 4] = ["real1", "real2", "iq1", "iq2"];

impl Format {
    /// The names of all packings, for an option that takes one.
    #[must_use]
    pub fn names() -> &'static [&'static str] {
        NAMES.as_slice()
    }

    /// The packing with this name.
    #[must_use]
    pub fn named(name: &str) -> Option<Format> {
        match name {
            "real1" => Some(Format::Real1),
            "real2" => Some(Format::Real2),
            "iq1" => Some(Format::Iq1),
            "iq2" => Some(Format::Iq2),
            _ => None,
        }
    }
}
