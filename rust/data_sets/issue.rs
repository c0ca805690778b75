// Made by tools/rust of crates/data_sets/src/issue.rt: change that.
//! The issue of data, by which clock and ephemeris pages belong together (IS-GPS-200, section
//! 20.3.3.4.1).

use crate::subframes::{
    ClockField, Eph2Field, Eph3Field, FIELDS_OF_CLOCK, FIELDS_OF_EPH2, FIELDS_OF_EPH3,
    FIELDS_OF_EPHEMERIS,
};

/// Where the issue of data stands among the numbers of a clock page (ten bits).
const IODC: usize = ClockField::Iodc as usize;

/// Where the issue of data stands among the numbers of a subframe 2 (eight bits).
const IODE: usize = Eph2Field::Iode as usize;

/// Where the issue of data stands among the numbers of a subframe 3 (eight bits).
const IODE3: usize = Eph3Field::Iode as usize;

/// Whether the low eight bits of the clock's issue of data are that of both ephemeris pages.
/// For a number below 0, which no subframe holds, they are its remainder modulo 256, from 0 up.
pub fn are_of_one_issue(
    clock: &[i64; FIELDS_OF_CLOCK],
    eph2: &[i64; FIELDS_OF_EPH2],
    eph3: &[i64; FIELDS_OF_EPH3],
) -> bool {
    clock[IODC].rem_euclid(256) == eph2[IODE] && eph2[IODE] == eph3[IODE3]
}

/// The numbers of a clock page and of both ephemeris pages, one page after the other.
pub fn numbers_of_pages(
    clock: &[i64; FIELDS_OF_CLOCK],
    eph2: &[i64; FIELDS_OF_EPH2],
    eph3: &[i64; FIELDS_OF_EPH3],
) -> [i64; FIELDS_OF_EPHEMERIS] {
    let mut numbers = [0; FIELDS_OF_EPHEMERIS];
    numbers[..FIELDS_OF_CLOCK].copy_from_slice(clock);
    numbers[FIELDS_OF_CLOCK..FIELDS_OF_CLOCK + FIELDS_OF_EPH2].copy_from_slice(eph2);
    numbers[FIELDS_OF_CLOCK + FIELDS_OF_EPH2..].copy_from_slice(eph3);
    numbers
}
