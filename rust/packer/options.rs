// Made by tools/rust of crates/packer/src/options.rt: change that.
//! What the options of a command line ask for.

pub use crate::packer::command::matches;
use crate::packer::failure::Failure;
use crate::packer::formats::{format, from};
use crate::packer::halves::halves;
use crate::kit::clap::ArgMatches;
use crate::recordings::{Choice, INFINITY, Recipe, Stretch, ValueKind};
use crate::sample_planes::{Format, MOST_TIME};

/// The recipe that the options ask for.
pub fn recipe(matches: &ArgMatches) -> Result<Recipe, Failure> {
    let choice = choice(matches)?;
    match choice.recipe() {
        Ok(recipe) => Ok(recipe),
        Err(fault) => Err(Failure::Choice(fault)),
    }
}

/// The choice that the options ask for.
fn choice(matches: &ArgMatches) -> Result<Choice, Failure> {
    let (is_paired, kind) = from(matches);
    let format = format(matches, is_paired)?;
    let (centre, centre_q) = centres(matches, kind)?;
    Ok(Choice {
        kind,
        is_paired,
        format,
        threshold: threshold(matches, kind, format)?,
        centre,
        centre_q,
        is_swapped: is_set(matches, "swap"),
        is_conjugate: is_set(matches, "conjugate"),
        takes_quadrature: takes_quadrature(matches),
    })
}

/// Twice the centres of both parts.
fn centres(matches: &ArgMatches, kind: ValueKind) -> Result<(i32, i32), Failure> {
    let centre = twice(matches, "centre", usual_centre(kind))?;
    let centre_q = twice(matches, "centre-q", centre)?;
    match kind {
        ValueKind::F32 if centre != 0 || centre_q != 0 => Err(Failure::Centre),
        _ => Ok((centre, centre_q)),
    }
}

/// Twice the centre that a part has where none is given: unsigned bytes are around 127.5.
fn usual_centre(kind: ValueKind) -> i32 {
    match kind {
        ValueKind::U8 => 255,
        _ => 0,
    }
}

/// Whether real samples are made of the part in quadrature.
fn takes_quadrature(matches: &ArgMatches) -> bool {
    matches.get_str("part") == Some("q")
}

/// Twice the threshold, or of floats its bits. A packing of one bit needs none.
fn threshold(matches: &ArgMatches, kind: ValueKind, format: Format) -> Result<u32, Failure> {
    match matches.get_str("threshold") {
        Some(text) if kind == ValueKind::F32 => float(text),
        Some(text) => match halves(text) {
            Some(number) if number >= 0 => Ok(number as u32),
            _ => Err(Failure::Number("threshold")),
        },
        None if matches!(format, Format::Real1 | Format::Iq1) => Ok(0),
        None => Err(Failure::NoThreshold),
    }
}

/// The bits of the float of a text, which is neither below 0 nor infinite.
fn float(text: &str) -> Result<u32, Failure> {
    if is_below_zero(text) {
        Err(Failure::Float)
    } else {
        decimal(text)
    }
}

/// Whether a decimal is below 0. Where it is very near to 0 its float is -0, which doesn't show it.
fn is_below_zero(text: &str) -> bool {
    match text.strip_prefix("-") {
        Some(_) => !has_no_size(text.as_bytes()),
        None => false,
    }
}

/// Whether none of the digits 1 to 9 is in a text.
fn has_no_size(text: &[u8]) -> bool {
    for byte in text {
        if (b'1'..=b'9').contains(byte) {
            return false;
        }
    }
    true
}

/// The bits of the float of a text, which is finite and has no sign, but for -0.
fn decimal(text: &str) -> Result<u32, Failure> {
    match text.parse::<f32>() {
        Ok(number) => match finite_bits(number) {
            Some(bits) => Ok(bits),
            None => Err(Failure::Float),
        },
        Err(_) => Err(Failure::Float),
    }
}

/// The bits of a float that is neither below 0 nor infinite. -0 is 0.
fn finite_bits(number: f32) -> Option<u32> {
    const MINUS_ZERO: u32 = 0x8000_0000;
    if number.is_nan() {
        return None;
    }
    match number.to_bits() {
        MINUS_ZERO => Some(0),
        bits if bits < INFINITY => Some(bits),
        _ => None,
    }
}

/// Twice the number of an option, or a default.
fn twice(matches: &ArgMatches, name: &'static str, default: i32) -> Result<i32, Failure> {
    match matches.get_str(name) {
        Some(text) => halves(text).ok_or(Failure::Number(name)),
        None => Ok(default),
    }
}

/// Whether the recording is to be measured.
pub fn is_measured(matches: &ArgMatches) -> bool {
    is_set(matches, "measure")
}

/// Whether an option without a value is there.
pub fn is_set(matches: &ArgMatches, name: &str) -> bool {
    matches.get_one(name).unwrap_or(false)
}

/// The stretch of the recording that the options ask for.
pub fn stretch(matches: &ArgMatches, recipe: &Recipe) -> Result<Stretch, Failure> {
    let skip = bytes(matches, recipe, "skip")?;
    Ok(Stretch::new(skip, bytes(matches, recipe, "count")?))
}

/// The bytes of a number of samples.
fn bytes(matches: &ArgMatches, recipe: &Recipe, name: &'static str) -> Result<u64, Failure> {
    let count: u64 = matches.get_one(name).unwrap_or(0);
    if count > MOST_TIME {
        return Err(Failure::Samples(name));
    }
    let bits = count * recipe.sample_bits() as u64;
    if bits % 8 == 0 {
        Ok(bits / 8)
    } else {
        Err(Failure::Samples(name))
    }
}
