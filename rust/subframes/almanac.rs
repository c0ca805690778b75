// Made by tools/rust of crates/subframes/src/almanac.rt: change that.
//! An almanac page, in subframe 4 or 5 (IS-GPS-200, section 20.3.3.5.1.2, table 20-VI).

use crate::subframes::fields::Field;
use crate::subframes::layout::{Bits, Layout};
use crate::subframes::rows::{fields_of, layout, layout_of, signed, unsigned};

/// A field of an almanac page (IS-GPS-200, section 20.3.3.5.1.2, table 20-VI).
#[derive(Clone, Copy, Debug, PartialEq, Eq)]
pub enum AlmanacField {
    /// The data ID.
    Data,
    /// The SV ID.
    Sv,
    /// The eccentricity.
    E,
    /// The time of applicability, in seconds of the week.
    Toa,
    /// What the inclination is above 0.3 semicircles, in semicircles.
    Di,
    /// The rate of the right ascension, in semicircles per second.
    Omdot,
    /// The health of the satellite.
    Health,
    /// The root of the semi-major axis, in roots of metres.
    Sqrta,
    /// The longitude of the ascending node at the week's start, in semicircles.
    Om0,
    /// The argument of perigee, in semicircles.
    W,
    /// The mean anomaly at the reference time, in semicircles.
    M0,
    /// The offset of the clock, in seconds.
    Af0,
    /// The drift of the clock, in seconds per second.
    Af1,
}

/// The rows of table 20-VI: the parts of af0 stand before and after af1.
macro_rules! almanac_rows {
    ($maker:ident $($given:tt)*) => {
        $maker! { $($given)* { Almanac(AlmanacField)
            Data: unsigned!("data", 61..=62; 0),
            Sv: unsigned!("sv", 63..=68; 0),
            E: unsigned!("e", 69..=84; -21),
            Toa: unsigned!("toa", 91..=98; 12),
            Di: signed!("di", 99..=114; -19),
            Omdot: signed!("omdot", 121..=136; -38),
            Health: unsigned!("health", 137..=144; 0),
            Sqrta: unsigned!("sqrta", 151..=174; -11),
            Om0: signed!("om0", 181..=204; -23),
            W: signed!("w", 211..=234; -23),
            M0: signed!("m0", 241..=264; -23),
            Af0: signed!("af0", 271..=278, 290..=292; -20),
            Af1: signed!("af1", 279..=289; -38),
        } }
    };
}

impl AlmanacField {
    /// Where the field stands, and the power of two of its scale factor.
    pub(crate) fn layout(self) -> Layout {
        almanac_rows!(layout_of self)
    }
}

/// The fields of an almanac page (IS-GPS-200, section 20.3.3.5.1.2).
pub const FIELDS_OF_ALMANAC: usize = 13;

/// The fields of an almanac page in the order of the table.
pub(crate) static ALMANAC_FIELDS: [Field; FIELDS_OF_ALMANAC] = almanac_rows!(fields_of);
