// Made by tools/rust of crates/client_commands/src/number.rt: change that.
//! The numbers that words write.

/// The most digits of a number.
const MOST_DIGITS: usize = 13;

/// The number that a word of 1 to 13 digits writes.
pub(crate) fn number_in(word: &[u8]) -> Option<u64> {
    if word.is_empty() || MOST_DIGITS < word.len() {
        return None;
    }
    let mut number = 0;
    for digit in word {
        if !digit.is_ascii_digit() {
            return None;
        }
        number = 10 * number + u64::from(*digit - b'0');
    }
    Some(number)
}

/// The number that a word writes: 1 to 13 digits, with or without a leading `-`.
pub(crate) fn signed_number_in(word: &[u8]) -> Option<i64> {
    match word {
        [b'-', digits @ ..] => number_in(digits).map(|number| -(number as i64)),
        _ => number_in(word).map(|number| number as i64),
    }
}
