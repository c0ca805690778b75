// Made by tools/rust of crates/subframes/src/kind.rt: change that.
//! The kinds of pages (IS-GPS-200, section 20.3.3.5.1.1, table 20-V).

use crate::subframes::almanac::ALMANAC_FIELDS;
use crate::subframes::clock::CLOCK_FIELDS;
use crate::subframes::ephemeris::{EPH2_FIELDS, EPH3_FIELDS};
use crate::subframes::fields::Field;
use crate::subframes::health::HEALTH_FIELDS;
use crate::subframes::layout::Bits;
use crate::subframes::utc::UTC_FIELDS;
use crate::frame_sync::Subframe;

/// Where the SV ID stands in a page of subframe 4 or 5.
const SV_ID: Bits = Bits {
    first: 63,
    last: 68,
};

/// A kind of page, by the table of its fields (IS-GPS-200, sections 20.3.3.3 to 20.3.3.5).
#[derive(Clone, Copy, Debug, PartialEq, Eq)]
pub enum Kind {
    /// Subframe 1 (section 20.3.3.3.1).
    Clock,
    /// Subframe 2 (section 20.3.3.4.1).
    Eph2,
    /// Subframe 3 (section 20.3.3.4.1).
    Eph3,
    /// SV ID 1 to 32 in subframe 4 or 5 (section 20.3.3.5.1.2).
    Almanac,
    /// SV ID 56 in subframe 4 (section 20.3.3.5.1.6).
    Utc,
    /// SV ID 51 in subframe 5 (section 20.3.3.5.1.3).
    Health,
    /// SV ID 55 in subframe 4 (section 20.3.3.5.1.8).
    Message,
}

impl Kind {
    /// The kind of the page that a subframe holds, a missing word read as 0, or `None` where it is
    /// of none.
    pub(crate) fn of(subframe: &Subframe) -> Option<Kind> {
        match subframe.id() {
            1 => Some(Kind::Clock),
            2 => Some(Kind::Eph2),
            3 => Some(Kind::Eph3),
            id => Kind::of_page(id, SV_ID.number(subframe)),
        }
    }

    /// The kind of a page of subframe 4 or 5, by its SV ID, whatever the data ID.
    fn of_page(id: u8, sv: u64) -> Option<Kind> {
        match (id, sv) {
            (4 | 5, 1..=32) => Some(Kind::Almanac),
            (4, 55) => Some(Kind::Message),
            (4, 56) => Some(Kind::Utc),
            (5, 51) => Some(Kind::Health),
            _ => None,
        }
    }

    /// The fields of a page of this kind, in the order of its table, which is that of the values of
    /// a [`Page`](crate::Page). The characters of a message are no fields.
    pub fn fields(self) -> &'static [Field] {
        match self {
            Kind::Clock => &CLOCK_FIELDS,
            Kind::Eph2 => &EPH2_FIELDS,
            Kind::Eph3 => &EPH3_FIELDS,
            Kind::Almanac => &ALMANAC_FIELDS,
            Kind::Utc => &UTC_FIELDS,
            Kind::Health => &HEALTH_FIELDS,
            Kind::Message => &[],
        }
    }
}
