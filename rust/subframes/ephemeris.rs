// Made by tools/rust of crates/subframes/src/ephemeris.rt: change that.
//! The two pages of the ephemeris, subframes 2 and 3 (IS-GPS-200, section 20.3.3.4.1, table
//! 20-III).

use crate::subframes::clock::{ClockField, FIELDS_OF_CLOCK, clock_rows};
use crate::subframes::fields::Field;
use crate::subframes::layout::{Bits, Layout};
use crate::subframes::rows::{fields_of, layout, layout_of, signed, unsigned};

/// A field of subframe 2, in the order of its bits (IS-GPS-200, section 20.3.3.4.1, table 20-III).
#[derive(Clone, Copy, Debug, PartialEq, Eq)]
pub enum Eph2Field {
    /// The issue of the ephemeris data.
    Iode,
    /// The sine correction of the orbit's radius, in metres.
    Crs,
    /// The correction of the mean motion, in semicircles per second.
    Dn,
    /// The mean anomaly at the reference time, in semicircles.
    M0,
    /// The cosine correction of the argument of latitude, in radians.
    Cuc,
    /// The eccentricity.
    E,
    /// The sine correction of the argument of latitude, in radians.
    Cus,
    /// The root of the semi-major axis, in roots of metres.
    Sqrta,
    /// The reference time of the ephemeris, in seconds of the week.
    Toe,
    /// 1 where the curve fit interval is longer than four hours.
    Fit,
    /// The age of the data offset, in units of 900 seconds.
    Aodo,
}

/// The rows of table 20-III, subframe 2.
macro_rules! eph2_rows {
    ($maker:ident $($given:tt)*) => {
        $maker! { $($given)* { Eph2(Eph2Field)
            Iode: unsigned!("iode", 61..=68; 0),
            Crs: signed!("crs", 69..=84; -5),
            Dn: signed!("dn", 91..=106; -43),
            M0: signed!("m0", 107..=114, 121..=144; -31),
            Cuc: signed!("cuc", 151..=166; -29),
            E: unsigned!("e", 167..=174, 181..=204; -33),
            Cus: signed!("cus", 211..=226; -29),
            Sqrta: unsigned!("sqrta", 227..=234, 241..=264; -19),
            Toe: unsigned!("toe", 271..=286; 4),
            Fit: unsigned!("fit", 287..=287; 0),
            Aodo: unsigned!("aodo", 288..=292; 0),
        } }
    };
}

impl Eph2Field {
    /// Where the field stands, and the power of two of its scale factor.
    pub(crate) fn layout(self) -> Layout {
        eph2_rows!(layout_of self)
    }
}

/// The fields of the first ephemeris page: of subframe 2 (IS-GPS-200, section 20.3.3.4.1).
pub const FIELDS_OF_EPH2: usize = 11;

/// The fields of subframe 2 in the order of the table.
pub(crate) static EPH2_FIELDS: [Field; FIELDS_OF_EPH2] = eph2_rows!(fields_of);

/// A field of subframe 3, in the order of its bits (IS-GPS-200, section 20.3.3.4.1, table 20-III).
#[derive(Clone, Copy, Debug, PartialEq, Eq)]
pub enum Eph3Field {
    /// The cosine correction of the inclination, in radians.
    Cic,
    /// The longitude of the ascending node at the week's start, in semicircles.
    Om0,
    /// The sine correction of the inclination, in radians.
    Cis,
    /// The inclination at the reference time, in semicircles.
    I0,
    /// The cosine correction of the orbit's radius, in metres.
    Crc,
    /// The argument of perigee, in semicircles.
    W,
    /// The rate of the right ascension, in semicircles per second.
    Omdot,
    /// The issue of the ephemeris data.
    Iode,
    /// The rate of the inclination, in semicircles per second.
    Idot,
}

/// The rows of table 20-III, subframe 3.
macro_rules! eph3_rows {
    ($maker:ident $($given:tt)*) => {
        $maker! { $($given)* { Eph3(Eph3Field)
            Cic: signed!("cic", 61..=76; -29),
            Om0: signed!("om0", 77..=84, 91..=114; -31),
            Cis: signed!("cis", 121..=136; -29),
            I0: signed!("i0", 137..=144, 151..=174; -31),
            Crc: signed!("crc", 181..=196; -5),
            W: signed!("w", 197..=204, 211..=234; -31),
            Omdot: signed!("omdot", 241..=264; -43),
            Iode: unsigned!("iode3", 271..=278; 0),
            Idot: signed!("idot", 279..=292; -43),
        } }
    };
}

impl Eph3Field {
    /// Where the field stands, and the power of two of its scale factor.
    pub(crate) fn layout(self) -> Layout {
        eph3_rows!(layout_of self)
    }
}

/// The fields of the second ephemeris page: of subframe 3 (IS-GPS-200, section 20.3.3.4.1).
pub const FIELDS_OF_EPH3: usize = 9;

/// The fields of subframe 3 in the order of the table.
pub(crate) static EPH3_FIELDS: [Field; FIELDS_OF_EPH3] = eph3_rows!(fields_of);

/// The fields of a clock and ephemeris: of subframes 1, 2 and 3 (IS-GPS-200, sections 20.3.3.3.1
/// and 20.3.3.4.1).
pub const FIELDS_OF_EPHEMERIS: usize = FIELDS_OF_CLOCK + FIELDS_OF_EPH2 + FIELDS_OF_EPH3;

/// The fields of a clock and ephemeris, in the order of the three tables.
static EPHEMERIS_FIELDS: [Field; FIELDS_OF_EPHEMERIS] = clock_rows!(eph2_rows eph3_rows fields_of);

/// The fields of a clock and ephemeris, those of the three pages one after the other: subframe 1,
/// subframe 2, subframe 3 (IS-GPS-200, sections 20.3.3.3.1 and 20.3.3.4.1).
pub fn ephemeris_fields() -> &'static [Field] {
    &EPHEMERIS_FIELDS
}
