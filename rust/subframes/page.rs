// Made by tools/rust of crates/subframes/src/page.rt: change that.
//! The page that a subframe holds.

use crate::subframes::almanac::{ALMANAC_FIELDS, FIELDS_OF_ALMANAC};
use crate::subframes::clock::{CLOCK_FIELDS, FIELDS_OF_CLOCK};
use crate::subframes::ephemeris::{EPH2_FIELDS, EPH3_FIELDS, FIELDS_OF_EPH2, FIELDS_OF_EPH3};
use crate::subframes::fields::Field;
use crate::subframes::health::{FIELDS_OF_HEALTH, HEALTH_FIELDS};
use crate::subframes::kind::Kind;
use crate::subframes::message::{CHARACTERS_OF_MESSAGE, characters};
use crate::subframes::reading::value;
use crate::subframes::utc::{FIELDS_OF_UTC, UTC_FIELDS};
use crate::frame_sync::Subframe;

/// The page of a complete subframe: the numbers of its fields in the order of its table, each from
/// -2^31 to 2^32 - 1, or the characters of its message (IS-GPS-200, sections 20.3.3.3 to 20.3.3.5).
#[derive(Clone, Copy, Debug, PartialEq, Eq)]
pub enum Page {
    /// Subframe 1 (section 20.3.3.3.1).
    Clock([i64; FIELDS_OF_CLOCK]),
    /// Subframe 2 (section 20.3.3.4.1).
    Eph2([i64; FIELDS_OF_EPH2]),
    /// Subframe 3 (section 20.3.3.4.1).
    Eph3([i64; FIELDS_OF_EPH3]),
    /// SV ID 1 to 32 in subframe 4 or 5 (section 20.3.3.5.1.2).
    Almanac([i64; FIELDS_OF_ALMANAC]),
    /// SV ID 56 in subframe 4 (section 20.3.3.5.1.6).
    Utc([i64; FIELDS_OF_UTC]),
    /// SV ID 51 in subframe 5 (section 20.3.3.5.1.3).
    Health([i64; FIELDS_OF_HEALTH]),
    /// SV ID 55 in subframe 4, as it is sent (section 20.3.3.5.1.8).
    Message([u8; CHARACTERS_OF_MESSAGE]),
}

impl Page {
    /// The page that a subframe holds, by its ID and, in subframes 4 and 5, by its SV ID, whatever
    /// the data ID. `None` where a word is missing or the page is of no [`Kind`] (IS-GPS-200,
    /// section 20.3.3.5.1.1, table 20-V).
    #[must_use]
    pub fn read(subframe: &Subframe) -> Option<Page> {
        if !subframe.complete() {
            return None;
        }
        Some(Page::of(Kind::of(subframe)?, subframe))
    }

    /// The page of a kind that a subframe holds, missing words read as 0.
    fn of(kind: Kind, subframe: &Subframe) -> Page {
        match kind {
            Kind::Clock => Page::Clock(values(subframe, &CLOCK_FIELDS)),
            Kind::Eph2 => Page::Eph2(values(subframe, &EPH2_FIELDS)),
            Kind::Eph3 => Page::Eph3(values(subframe, &EPH3_FIELDS)),
            Kind::Almanac => Page::Almanac(values(subframe, &ALMANAC_FIELDS)),
            Kind::Utc => Page::Utc(values(subframe, &UTC_FIELDS)),
            Kind::Health => Page::Health(values(subframe, &HEALTH_FIELDS)),
            Kind::Message => Page::Message(characters(subframe)),
        }
    }

    /// The page's kind, whose fields name its values.
    #[must_use]
    pub fn kind(&self) -> Kind {
        match self {
            Page::Clock(_) => Kind::Clock,
            Page::Eph2(_) => Kind::Eph2,
            Page::Eph3(_) => Kind::Eph3,
            Page::Almanac(_) => Kind::Almanac,
            Page::Utc(_) => Kind::Utc,
            Page::Health(_) => Kind::Health,
            Page::Message(_) => Kind::Message,
        }
    }

    /// The numbers of the page's fields, in the order of its kind's [`fields`](Kind::fields). A
    /// message has none: its characters are no fields.
    #[must_use]
    pub fn values(&self) -> &[i64] {
        match self {
            Page::Clock(numbers) => numbers,
            Page::Eph2(numbers) => numbers,
            Page::Eph3(numbers) => numbers,
            Page::Almanac(numbers) => numbers,
            Page::Utc(numbers) => numbers,
            Page::Health(numbers) => numbers,
            Page::Message(_) => &[],
        }
    }

    /// The number of a field, in units of two to the power of its [`exponent`](Field::exponent), or
    /// `None` where the page is of another kind.
    #[must_use]
    pub fn value(&self, field: Field) -> Option<i64> {
        if field.kind() == self.kind() {
            Some(self.values()[field.place()])
        } else {
            None
        }
    }
}

/// The numbers that fields have in a subframe, missing words read as 0.
fn values<const N: usize>(subframe: &Subframe, fields: &[Field; N]) -> [i64; N] {
    let mut values = [0; N];
    for (i, field) in fields.iter().enumerate() {
        values[i] = value(subframe, *field);
    }
    values
}
