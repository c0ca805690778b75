// Made by tools/rust of crates/subframes/src/health.rt: change that.
//! The page of the health of satellites 1 to 24, in subframe 5 (IS-GPS-200, section 20.3.3.5.1.3).

use crate::subframes::fields::Field;
use crate::subframes::layout::{Bits, Layout};
use crate::subframes::rows::{fields_of, layout, layout_of, unsigned};

/// A field of the page with SV ID 51 of subframe 5 (IS-GPS-200, section 20.3.3.5.1.3).
#[derive(Clone, Copy, Debug, PartialEq, Eq)]
pub enum HealthField {
    /// The data ID.
    Data,
    /// The SV ID.
    Sv,
    /// The time of applicability of the almanacs, in seconds of the week.
    Toa,
    /// The week of the time of applicability of the almanacs, modulo 256.
    Wna,
    /// The health of satellite 1.
    H1,
    /// The health of satellite 2.
    H2,
    /// The health of satellite 3.
    H3,
    /// The health of satellite 4.
    H4,
    /// The health of satellite 5.
    H5,
    /// The health of satellite 6.
    H6,
    /// The health of satellite 7.
    H7,
    /// The health of satellite 8.
    H8,
    /// The health of satellite 9.
    H9,
    /// The health of satellite 10.
    H10,
    /// The health of satellite 11.
    H11,
    /// The health of satellite 12.
    H12,
    /// The health of satellite 13.
    H13,
    /// The health of satellite 14.
    H14,
    /// The health of satellite 15.
    H15,
    /// The health of satellite 16.
    H16,
    /// The health of satellite 17.
    H17,
    /// The health of satellite 18.
    H18,
    /// The health of satellite 19.
    H19,
    /// The health of satellite 20.
    H20,
    /// The health of satellite 21.
    H21,
    /// The health of satellite 22.
    H22,
    /// The health of satellite 23.
    H23,
    /// The health of satellite 24.
    H24,
}

/// The rows of the page of health: words 4 to 9 have four satellites each.
macro_rules! health_rows {
    ($maker:ident $($given:tt)*) => {
        $maker! { $($given)* { Health(HealthField)
            Data: unsigned!("data", 61..=62; 0),
            Sv: unsigned!("sv", 63..=68; 0),
            Toa: unsigned!("toa", 69..=76; 12),
            Wna: unsigned!("wna", 77..=84; 0),
            H1: unsigned!("h1", 91..=96; 0),
            H2: unsigned!("h2", 97..=102; 0),
            H3: unsigned!("h3", 103..=108; 0),
            H4: unsigned!("h4", 109..=114; 0),
            H5: unsigned!("h5", 121..=126; 0),
            H6: unsigned!("h6", 127..=132; 0),
            H7: unsigned!("h7", 133..=138; 0),
            H8: unsigned!("h8", 139..=144; 0),
            H9: unsigned!("h9", 151..=156; 0),
            H10: unsigned!("h10", 157..=162; 0),
            H11: unsigned!("h11", 163..=168; 0),
            H12: unsigned!("h12", 169..=174; 0),
            H13: unsigned!("h13", 181..=186; 0),
            H14: unsigned!("h14", 187..=192; 0),
            H15: unsigned!("h15", 193..=198; 0),
            H16: unsigned!("h16", 199..=204; 0),
            H17: unsigned!("h17", 211..=216; 0),
            H18: unsigned!("h18", 217..=222; 0),
            H19: unsigned!("h19", 223..=228; 0),
            H20: unsigned!("h20", 229..=234; 0),
            H21: unsigned!("h21", 241..=246; 0),
            H22: unsigned!("h22", 247..=252; 0),
            H23: unsigned!("h23", 253..=258; 0),
            H24: unsigned!("h24", 259..=264; 0),
        } }
    };
}

impl HealthField {
    /// Where the field stands, and the power of two of its scale factor.
    pub(crate) fn layout(self) -> Layout {
        health_rows!(layout_of self)
    }
}

/// The fields of the page with SV ID 51 of subframe 5 (IS-GPS-200, section 20.3.3.5.1.3).
pub const FIELDS_OF_HEALTH: usize = 28;

/// The fields of a health page in the order of the table.
pub(crate) static HEALTH_FIELDS: [Field; FIELDS_OF_HEALTH] = health_rows!(fields_of);
