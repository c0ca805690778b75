// Made by tools/rust of crates/packer/src/formats.rt: change that.
//! Kinds of recordings and packings, by the names that options have for them.

use crate::packer::failure::Failure;
use crate::packer::options::{is_measured, is_set};
use crate::kit::clap::ArgMatches;
use crate::recordings::ValueKind;
use crate::sample_planes::Format;

/// The kinds that `--from` takes.
pub static KINDS: [&str; 18] = [
    "u8",
    "i8",
    "i16",
    "i16be",
    "f32",
    "bits2-low",
    "bits2-sm-low",
    "bits1-low",
    "bits1-high",
    "iq-u8",
    "iq-i8",
    "iq-i16",
    "iq-i16be",
    "iq-f32",
    "iq-bits2-low",
    "iq-bits2-sm-low",
    "iq-bits1-low",
    "iq-bits1-high",
];

/// Whether the recording's values are pairs, and their kind.
pub fn from(matches: &ArgMatches) -> (bool, ValueKind) {
    kind(matches.get_str("from").unwrap_or("u8"))
}

/// Whether the values are pairs, and their kind, by a name.
fn kind(name: &str) -> (bool, ValueKind) {
    match name.strip_prefix("iq-") {
        Some(rest) => (true, named_kind(rest)),
        None => (false, named_kind(name)),
    }
}

/// A kind by its name.
fn named_kind(name: &str) -> ValueKind {
    match name {
        "i8" => ValueKind::I8,
        "i16" => ValueKind::I16,
        "i16be" => ValueKind::I16Be,
        "f32" => ValueKind::F32,
        "bits2-low" => ValueKind::Bits2Low,
        "bits2-sm-low" => ValueKind::SignSizeLow,
        "bits1-low" => ValueKind::Bits1Low,
        "bits1-high" => ValueKind::Bits1High,
        _ => ValueKind::U8,
    }
}

/// The packing to write, or one of signs alone for what is measured, which is not written.
pub fn format(matches: &ArgMatches, is_paired: bool) -> Result<Format, Failure> {
    if is_measured(matches) {
        measured_format(matches, is_paired)
    } else {
        written_format(matches)
    }
}

/// A packing of signs alone for what is measured.
fn measured_format(matches: &ArgMatches, is_paired: bool) -> Result<Format, Failure> {
    match packing_option(matches) {
        Some(name) => Err(Failure::NotPacked(name)),
        None if is_paired => Ok(Format::Iq1),
        None => Ok(Format::Real1),
    }
}

/// The name of an option that says how to pack, where there is one.
fn packing_option(matches: &ArgMatches) -> Option<&'static str> {
    if is_given(matches, "to") {
        Some("to")
    } else if is_given(matches, "threshold") {
        Some("threshold")
    } else if is_given(matches, "centre") {
        Some("centre")
    } else if is_given(matches, "centre-q") {
        Some("centre-q")
    } else if is_set(matches, "conjugate") {
        Some("conjugate")
    } else {
        None
    }
}

/// Whether an option with a value is there.
fn is_given(matches: &ArgMatches, name: &str) -> bool {
    matches.get_str(name).is_some()
}

/// The packing to write.
fn written_format(matches: &ArgMatches) -> Result<Format, Failure> {
    let Some(name) = matches.get_str("to") else {
        return Err(Failure::NoFormat);
    };
    match Format::named(name) {
        Some(format) => Ok(format),
        None => Err(Failure::NoFormat),
    }
}
