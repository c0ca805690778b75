// Made by tools/rust of crates/subframes/src/clock.rt: change that.
//! The clock page, subframe 1 (IS-GPS-200, section 20.3.3.3.1, table 20-I).

use crate::subframes::fields::Field;
use crate::subframes::layout::{Bits, Layout};
use crate::subframes::rows::{fields_of, layout, layout_of, signed, unsigned};

/// A field of subframe 1, in the table's order (IS-GPS-200, section 20.3.3.3.1, table 20-I).
#[derive(Clone, Copy, Debug, PartialEq, Eq)]
pub enum ClockField {
    /// The week number, modulo 1024.
    Wn,
    /// The code on L2.
    L2,
    /// The index of the user range accuracy.
    Ura,
    /// The health of the satellite.
    Health,
    /// The issue of the clock data.
    Iodc,
    /// 1 where the P code on L2 has no navigation data.
    L2p,
    /// The group delay, in seconds.
    Tgd,
    /// The reference time of the clock data, in seconds of the week.
    Toc,
    /// The rate of the clock's drift, in seconds per second squared.
    Af2,
    /// The drift of the clock, in seconds per second.
    Af1,
    /// The offset of the clock, in seconds.
    Af0,
}

/// The rows of table 20-I.
macro_rules! clock_rows {
    ($maker:ident $($given:tt)*) => {
        $maker! { $($given)* { Clock(ClockField)
            Wn: unsigned!("wn", 61..=70; 0),
            L2: unsigned!("l2", 71..=72; 0),
            Ura: unsigned!("ura", 73..=76; 0),
            Health: unsigned!("health", 77..=82; 0),
            Iodc: unsigned!("iodc", 83..=84, 211..=218; 0),
            L2p: unsigned!("l2p", 91..=91; 0),
            Tgd: signed!("tgd", 197..=204; -31),
            Toc: unsigned!("toc", 219..=234; 4),
            Af2: signed!("af2", 241..=248; -55),
            Af1: signed!("af1", 249..=264; -43),
            Af0: signed!("af0", 271..=292; -31),
        } }
    };
}

impl ClockField {
    /// Where the field stands, and the power of two of its scale factor.
    pub(crate) fn layout(self) -> Layout {
        clock_rows!(layout_of self)
    }
}

/// The fields of a clock page: of subframe 1 (IS-GPS-200, section 20.3.3.3.1).
pub const FIELDS_OF_CLOCK: usize = 11;

/// The fields of subframe 1 in the order of the table.
pub(crate) static CLOCK_FIELDS: [Field; FIELDS_OF_CLOCK] = clock_rows!(fields_of);

pub(crate) use clock_rows;
