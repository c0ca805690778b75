// Made by tools/rust of crates/subframes/src/fields.rt: change that.
//! Each field by its name.

use crate::subframes::almanac::AlmanacField;
use crate::subframes::clock::ClockField;
use crate::subframes::ephemeris::{Eph2Field, Eph3Field};
use crate::subframes::health::HealthField;
use crate::subframes::kind::Kind;
use crate::subframes::layout::Layout;
use crate::subframes::utc::UtcField;

/// A field of the message, by the table that it stands in (IS-GPS-200, sections 20.3.3.3 to
/// 20.3.3.5). Its number times two to the power of [`Field::exponent`] is its value, in the unit
/// that its variant names.
#[derive(Clone, Copy, Debug, PartialEq, Eq)]
pub enum Field {
    /// Subframe 1, the clock (section 20.3.3.3.1).
    Clock(ClockField),
    /// Subframe 2, the first part of the ephemeris (section 20.3.3.4.1).
    Eph2(Eph2Field),
    /// Subframe 3, the second part of the ephemeris (section 20.3.3.4.1).
    Eph3(Eph3Field),
    /// An almanac (section 20.3.3.5.1.2).
    Almanac(AlmanacField),
    /// The ionosphere and coordinated universal time (sections 20.3.3.5.1.6 and 20.3.3.5.1.7).
    Utc(UtcField),
    /// The health of satellites 1 to 24 (section 20.3.3.5.1.3).
    Health(HealthField),
}

impl Field {
    /// The field's name within its table, as `tgd`.
    #[must_use]
    pub fn name(self) -> &'static str {
        self.layout().name
    }

    /// The power of two that is the field's scale factor: 0 where it is counted in its own unit.
    #[must_use]
    pub fn exponent(self) -> i8 {
        self.layout().exponent
    }

    /// The kind of the pages that have the field.
    pub(crate) fn kind(self) -> Kind {
        match self {
            Field::Clock(_) => Kind::Clock,
            Field::Eph2(_) => Kind::Eph2,
            Field::Eph3(_) => Kind::Eph3,
            Field::Almanac(_) => Kind::Almanac,
            Field::Utc(_) => Kind::Utc,
            Field::Health(_) => Kind::Health,
        }
    }

    /// The field's place among the fields of its kind, from 0.
    pub(crate) fn place(self) -> usize {
        match self {
            Field::Clock(field) => field as usize,
            Field::Eph2(field) => field as usize,
            Field::Eph3(field) => field as usize,
            Field::Almanac(field) => field as usize,
            Field::Utc(field) => field as usize,
            Field::Health(field) => field as usize,
        }
    }

    /// The field's line of its table.
    pub(crate) fn layout(self) -> Layout {
        match self {
            Field::Clock(field) => field.layout(),
            Field::Eph2(field) => field.layout(),
            Field::Eph3(field) => field.layout(),
            Field::Almanac(field) => field.layout(),
            Field::Utc(field) => field.layout(),
            Field::Health(field) => field.layout(),
        }
    }
}
