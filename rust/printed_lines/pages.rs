// Made by tools/rust of crates/printed_lines/src/pages.rt: change that.
//! The words of pages, and of a clock and ephemeris.

use crate::printed_lines::words::{KIND_BYTES, Line, NUMBER_BYTES};
use crate::data_sets::Report;
use crate::subframes::{CHARACTERS_OF_MESSAGE, FIELDS_OF_EPHEMERIS, Field};

/// The most bytes that a field takes up: a space, a name, `=`, a number of 64 bits, `:` and an
/// exponent. A name and its exponent have at most 8 bytes.
pub const FIELD_BYTES: usize = NUMBER_BYTES + 11;

/// The most bytes that the words of a page take up, and room for one number more: before its last
/// exponent a line wants room for a number of any length.
pub const PAGE_BYTES: usize = KIND_BYTES + FIELDS_OF_EPHEMERIS * FIELD_BYTES + NUMBER_BYTES;

/// The digits of a message: two for each of its characters (IS-GPS-200, section 20.3.3.5.1.8).
pub const MESSAGE_DIGITS: usize = 2 * CHARACTERS_OF_MESSAGE;

/// The bytes that the characters of a message take up: a space and their digits.
pub const MESSAGE_BYTES: usize = MESSAGE_DIGITS + 1;

/// Adds the words of a page, or of a clock and ephemeris (IS-GPS-200, sections 20.3.3.3 to
/// 20.3.3.5).
pub(crate) fn put_report(line: &mut Line, slot: u8, report: &Report) {
    match report {
        Report::Eph(_) => put_page(line, b"eph", slot, report),
        Report::Alm(_) => put_page(line, b"alm", slot, report),
        Report::Utc(_) => put_page(line, b"utc", slot, report),
        Report::Hlt(_) => put_page(line, b"hlt", slot, report),
        Report::Msg(characters) => put_message(line, slot, characters),
    }
}

/// Adds the words of a page of a kind, whose numbers have names.
fn put_page(line: &mut Line, kind: &[u8], slot: u8, report: &Report) {
    line.kind(kind, slot);
    put_fields(line, report.fields(), report.values());
}

/// Adds fields with their numbers.
fn put_fields(line: &mut Line, fields: &[Field], values: &[i64]) {
    assert!(
        fields.len() == values.len(),
        "put_fields requires a value for each field"
    );
    for i in 0..fields.len() {
        put_field(line, fields[i], values[i]);
    }
}

/// Adds a field: its name, its number and the power of two of its unit.
fn put_field(line: &mut Line, field: Field, value: i64) {
    line.text(b" ");
    line.text(field.name().as_bytes());
    line.text(b"=");
    line.integer(value);
    line.text(b":");
    line.integer(field.exponent().into());
}

/// Adds the words of a message (IS-GPS-200, section 20.3.3.5.1.8).
fn put_message(line: &mut Line, slot: u8, characters: &[u8; CHARACTERS_OF_MESSAGE]) {
    line.kind(b"msg", slot);
    line.text(b" ");
    put_characters(line, characters);
}

/// Adds two digits for each character to the last word.
fn put_characters(line: &mut Line, characters: &[u8; CHARACTERS_OF_MESSAGE]) {
    for character in characters {
        line.hex(*character);
    }
}
