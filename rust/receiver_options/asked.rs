// Made by tools/rust of crates/receiver_options/src/asked.rt: change that.
//! What the options ask for.

use crate::kit::clap::ArgMatches;
use crate::oscillators::{Settings, SettingsFault};
use crate::sample_planes::Format;

/// The settings that the options ask for.
pub fn settings(matches: &ArgMatches) -> Result<Settings, SettingsFault> {
    settings_of(
        number(matches, "rate", 2_046_000),
        number(matches, "offset", 0),
        flag(matches, "minus"),
        packing(matches),
    )
}

/// Settings by the words of the options.
fn settings_of(
    rate: u32,
    offset: u32,
    is_minus: bool,
    format: Format,
) -> Result<Settings, SettingsFault> {
    let offset = i64::from(offset);
    let offset = if is_minus { -offset } else { offset };
    Settings::new(rate, offset, format)
}

/// The number of an option, or its default.
fn number(matches: &ArgMatches, id: &str, default: u32) -> u32 {
    matches.get_one(id).unwrap_or(default)
}

/// Whether a flag is set.
fn flag(matches: &ArgMatches, id: &str) -> bool {
    matches.get_one(id).unwrap_or(false)
}

/// The text of an option that has one.
pub fn text<'w>(matches: &ArgMatches<'w>, id: &str) -> Option<&'w str> {
    matches.get_str(id)
}

/// The format of the samples.
fn packing(matches: &ArgMatches) -> Format {
    let Some(name) = text(matches, "format") else {
        return Format::Real1;
    };
    Format::named(name).unwrap_or(Format::Real1)
}

/// The names of the script files, in the order of the command line.
pub fn scripts<'m>(matches: &'m ArgMatches) -> &'m [&'m str] {
    matches.get_strs("script").unwrap_or(&[])
}
