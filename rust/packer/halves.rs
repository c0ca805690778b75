// Made by tools/rust of crates/packer/src/halves.rt: change that.
//! Numbers with halves, as options have them.

/// The greatest whole number that an option with halves takes. A half may be added to it.
pub const MOST_WHOLE: u32 = 1_000_000;

/// Twice the greatest number that an option with halves takes, which is 1,000,000 and a half.
pub const MOST_HALVES: u32 = 2 * MOST_WHOLE + 1;

/// Twice the number of a text such as `12`, `-3` or `127.5`; none where it isn't one, or isn't
/// within 1,000,000 and a half of zero.
pub fn halves(text: &str) -> Option<i32> {
    match text.strip_prefix("-") {
        Some(digits) => Some(-(twice(digits)? as i32)),
        None => Some(twice(text)? as i32),
    }
}

/// Twice the number of a text without a sign.
fn twice(text: &str) -> Option<u32> {
    match text.strip_suffix(".5") {
        Some(front) => Some(2 * whole(front)? + 1),
        None => Some(2 * whole(text)?),
    }
}

/// The whole number of a text.
fn whole(text: &str) -> Option<u32> {
    let number = text.parse::<u32>().ok()?;
    if number <= MOST_WHOLE {
        Some(number)
    } else {
        None
    }
}
