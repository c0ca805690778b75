// Made by tools/rust of crates/printed_lines/src/words.rt: change that.
//! A line in the making, word by word. One space stands before each word but the first.

use crate::printed_lines::hex::hex_digit;
use crate::kit::arrayvec::ArrayVec;
use core::ops::Deref;

/// The most bytes that a line has, its end included.
pub const LINE_BYTES: usize = 1024;

/// The most bytes of a number of 64 bits: twenty digits, or a sign and nineteen.
pub const NUMBER_BYTES: usize = 20;

/// The most bytes that a word takes up: a space and a number.
pub const WORD_BYTES: usize = NUMBER_BYTES + 1;

/// The most digits of a number of 8 bits.
const BYTE_DIGITS: usize = 3;

/// The most letters of a kind of line.
pub const KIND_LETTERS: usize = 6;

/// The most bytes that a line begins with: a client and a time.
pub const HEAD_BYTES: usize = BYTE_DIGITS + WORD_BYTES;

/// The most bytes that a kind and a slot take up, each with a space before it.
pub const KIND_BYTES: usize = KIND_LETTERS + BYTE_DIGITS + 2;

/// A line in the making, or one with its end. Clauses see its bytes.
pub struct Line {
    bytes: ArrayVec<u8, LINE_BYTES>,
}

impl Deref for Line {
    type Target = [u8];

    fn deref(&self) -> &[u8] {
        self.bytes.as_slice()
    }
}

impl Line {
    /// A line with no word, in whose room others can be made.
    pub fn blank() -> Self {
        Line {
            bytes: ArrayVec::new(),
        }
    }

    /// A line of a client at a time.
    pub(crate) fn new(client: u8, time: u64) -> Self {
        let mut line = Line::blank();
        line.begin(client, time);
        line
    }

    /// Begins a line of a client at a time, in the room of what was there.
    pub(crate) fn begin(&mut self, client: u8, time: u64) {
        self.bytes.clear();
        push_decimal(&mut self.bytes, client.into());
        self.number(time);
    }

    /// Adds the kind of a line and the slot that it is of.
    pub(crate) fn kind(&mut self, kind: &[u8], slot: u8) {
        self.text(b" ");
        self.text(kind);
        self.text(b" ");
        push_decimal(&mut self.bytes, slot.into());
    }

    /// Adds a word.
    pub(crate) fn word(&mut self, text: &[u8]) {
        self.text(b" ");
        self.text(text);
    }

    /// Adds a number as a word.
    pub(crate) fn number(&mut self, n: u64) {
        self.text(b" ");
        push_decimal(&mut self.bytes, n);
    }

    /// Adds a number with its sign, where it is below zero, as a word.
    pub(crate) fn signed(&mut self, z: i64) {
        self.text(b" ");
        self.integer(z);
    }

    /// Adds bytes to the last word.
    pub(crate) fn text(&mut self, text: &[u8]) {
        let _fits = self.bytes.try_extend_from_slice(text);
    }

    /// Adds a number, with its sign where it is below zero, to the last word.
    pub(crate) fn integer(&mut self, z: i64) {
        if z < 0 {
            self.bytes.push(b'-');
        }
        push_decimal(&mut self.bytes, z.unsigned_abs());
    }

    /// Adds two lower case hexadecimal digits to the last word.
    pub(crate) fn hex(&mut self, byte: u8) {
        self.bytes.push(hex_digit(byte / 16));
        self.bytes.push(hex_digit(byte % 16));
    }

    /// Adds the line feed that ends the line.
    pub(crate) fn end(&mut self) {
        self.bytes.push(b'\n');
    }
}

/// Adds the digits of a number.
fn push_decimal(bytes: &mut ArrayVec<u8, LINE_BYTES>, n: u64) {
    if 10 <= n {
        push_decimal(bytes, n / 10);
    }
    bytes.push(b'0' + (n % 10) as u8);
}
