// Made by tools/rust of crates/subframes/src/utc.rt: change that.
//! The page of the ionosphere and of coordinated universal time, in subframe 4 (IS-GPS-200,
//! sections 20.3.3.5.1.6 and 20.3.3.5.1.7, tables 20-IX and 20-X).

use crate::subframes::fields::Field;
use crate::subframes::layout::{Bits, Layout};
use crate::subframes::rows::{fields_of, layout, layout_of, signed, unsigned};

/// A field of the page with SV ID 56 of subframe 4 (IS-GPS-200, section 20.3.3.5.1.6, table 20-IX).
#[derive(Clone, Copy, Debug, PartialEq, Eq)]
pub enum UtcField {
    /// The data ID.
    Data,
    /// The SV ID.
    Sv,
    /// The amplitude of the ionosphere's delay, in seconds.
    Al0,
    /// The term of the amplitude of the ionosphere's delay, in seconds per semicircle.
    Al1,
    /// The term of the amplitude of the ionosphere's delay, in seconds per semicircle squared.
    Al2,
    /// The term of the amplitude of the ionosphere's delay, in seconds per semicircle cubed.
    Al3,
    /// The period of the ionosphere's delay, in seconds.
    Be0,
    /// The term of the period of the ionosphere's delay, in seconds per semicircle.
    Be1,
    /// The term of the period of the ionosphere's delay, in seconds per semicircle squared.
    Be2,
    /// The term of the period of the ionosphere's delay, in seconds per semicircle cubed.
    Be3,
    /// The drift of GPS time against UTC, in seconds per second.
    A1,
    /// The offset of GPS time from UTC, in seconds.
    A0,
    /// The reference time of the UTC data, in seconds of the week.
    Tot,
    /// The week of the reference time of the UTC data, modulo 256.
    Wnt,
    /// The leap seconds so far.
    Dtls,
    /// The week of the next leap second, modulo 256.
    Wnlsf,
    /// The day of the next leap second, from 1 for Sunday.
    Dn,
    /// The leap seconds from the next leap second on.
    Dtlsf,
}

/// The rows of table 20-IX.
macro_rules! utc_rows {
    ($maker:ident $($given:tt)*) => {
        $maker! { $($given)* { Utc(UtcField)
            Data: unsigned!("data", 61..=62; 0),
            Sv: unsigned!("sv", 63..=68; 0),
            Al0: signed!("al0", 69..=76; -30),
            Al1: signed!("al1", 77..=84; -27),
            Al2: signed!("al2", 91..=98; -24),
            Al3: signed!("al3", 99..=106; -24),
            Be0: signed!("be0", 107..=114; 11),
            Be1: signed!("be1", 121..=128; 14),
            Be2: signed!("be2", 129..=136; 16),
            Be3: signed!("be3", 137..=144; 16),
            A1: signed!("a1", 151..=174; -50),
            A0: signed!("a0", 181..=204, 211..=218; -30),
            Tot: unsigned!("tot", 219..=226; 12),
            Wnt: unsigned!("wnt", 227..=234; 0),
            Dtls: signed!("dtls", 241..=248; 0),
            Wnlsf: unsigned!("wnlsf", 249..=256; 0),
            Dn: unsigned!("dn", 257..=264; 0),
            Dtlsf: signed!("dtlsf", 271..=278; 0),
        } }
    };
}

impl UtcField {
    /// Where the field stands, and the power of two of its scale factor.
    pub(crate) fn layout(self) -> Layout {
        utc_rows!(layout_of self)
    }
}

/// The fields of the page with SV ID 56 of subframe 4 (IS-GPS-200, section 20.3.3.5.1.6).
pub const FIELDS_OF_UTC: usize = 18;

/// The fields of a page of UTC in the order of the table.
pub(crate) static UTC_FIELDS: [Field; FIELDS_OF_UTC] = utc_rows!(fields_of);
