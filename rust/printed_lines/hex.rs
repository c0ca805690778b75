// Made by tools/rust of crates/printed_lines/src/hex.rt: change that.
//! Hexadecimal digits.

/// The lower case hexadecimal digit of a number below 16.
pub(crate) fn hex_digit(n: u8) -> u8 {
    if n < 10 { b'0' + n } else { b'a' - 10 + n }
}
