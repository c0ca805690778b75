// Made by tools/rust of crates/data_sets/src/report.rt: change that.
//! What a page makes reported.

use crate::subframes::{
    CHARACTERS_OF_MESSAGE, FIELDS_OF_ALMANAC, FIELDS_OF_CLOCK, FIELDS_OF_EPH2, FIELDS_OF_EPHEMERIS,
    FIELDS_OF_HEALTH, FIELDS_OF_UTC, Field, Kind, Page, ephemeris_fields,
};

/// A set of pages or a single page: the numbers of its fields in the order of their tables, or the
/// characters of its message (IS-GPS-200, section 20.3.3).
#[non_exhaustive]
#[derive(Clone, Copy, Debug, PartialEq, Eq)]
pub enum Report {
    /// The clock and ephemeris of one issue of data: the fields of subframe 1, then of subframe 2,
    /// then of subframe 3 (sections 20.3.3.3.1 and 20.3.3.4.1).
    Eph([i64; FIELDS_OF_EPHEMERIS]),
    /// An almanac (section 20.3.3.5.1.2).
    Alm([i64; FIELDS_OF_ALMANAC]),
    /// The ionosphere and coordinated universal time (sections 20.3.3.5.1.6 and 20.3.3.5.1.7).
    Utc([i64; FIELDS_OF_UTC]),
    /// The health of satellites 1 to 24 (section 20.3.3.5.1.3).
    Hlt([i64; FIELDS_OF_HEALTH]),
    /// The characters of a special message, as they are sent (section 20.3.3.5.1.8).
    Msg([u8; CHARACTERS_OF_MESSAGE]),
}

impl Report {
    /// The fields whose numbers are reported, in their order. The characters of a message are none.
    #[must_use]
    pub fn fields(&self) -> &'static [Field] {
        match self {
            Report::Eph(_) => ephemeris_fields(),
            Report::Alm(_) => Kind::Almanac.fields(),
            Report::Utc(_) => Kind::Utc.fields(),
            Report::Hlt(_) => Kind::Health.fields(),
            Report::Msg(_) => Kind::Message.fields(),
        }
    }

    /// The numbers of the report's [`fields`](Report::fields), in their order.
    #[must_use]
    pub fn values(&self) -> &[i64] {
        match self {
            Report::Eph(numbers) => numbers,
            Report::Alm(numbers) => numbers,
            Report::Utc(numbers) => numbers,
            Report::Hlt(numbers) => numbers,
            Report::Msg(_) => &[],
        }
    }

    /// The number of a field, in units of two to the power of its [`exponent`](Field::exponent), or
    /// `None` where the report doesn't have it.
    #[must_use]
    pub fn value(&self, field: Field) -> Option<i64> {
        match self {
            Report::Eph(numbers) => Some(numbers[place(field)?]),
            Report::Alm(numbers) => Page::Almanac(*numbers).value(field),
            Report::Utc(numbers) => Page::Utc(*numbers).value(field),
            Report::Hlt(numbers) => Page::Health(*numbers).value(field),
            Report::Msg(_) => None,
        }
    }
}

/// The place of a field among those of a clock and ephemeris, from 0, if it is one of them.
fn place(field: Field) -> Option<usize> {
    match field {
        Field::Clock(field) => Some(field as usize),
        Field::Eph2(field) => Some(FIELDS_OF_CLOCK + field as usize),
        Field::Eph3(field) => Some(FIELDS_OF_CLOCK + FIELDS_OF_EPH2 + field as usize),
        _ => None,
    }
}
