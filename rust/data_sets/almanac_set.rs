// Made by tools/rust of crates/data_sets/src/almanac_set.rt: change that.
//! The almanacs of all satellites together.

use crate::subframes::{AlmanacField, FIELDS_OF_ALMANAC};

/// Where the time of applicability stands among the numbers of an almanac.
const TOA: usize = AlmanacField::Toa as usize;

/// Where the health stands among the numbers of an almanac.
const HEALTH: usize = AlmanacField::Health as usize;

/// The satellites that have an almanac: those of numbers 1 to 32 (IS-GPS-200, section 3.2.1.3).
pub const SATELLITES: usize = 32;

/// The almanacs of satellites 1 to 32, which are all for one time (IS-GPS-200, section
/// 20.3.3.5.1.2).
#[derive(Clone, Copy, Debug, PartialEq, Eq)]
pub struct AlmanacSet {
    /// The time of applicability, in units of 2^12 seconds.
    pub toa: i64,
    /// The health of each of the satellites, from number 1 on.
    pub health: [i64; SATELLITES],
}

impl AlmanacSet {
    /// The set of the almanacs of satellites 1 to 32, where all are there for one time.
    pub(crate) fn of(last: &[Option<[i64; FIELDS_OF_ALMANAC]>; SATELLITES]) -> Option<AlmanacSet> {
        let toa = last[0]?[TOA];
        let mut health = [0; SATELLITES];
        for k in 0..SATELLITES {
            let almanac = &last[k]?;
            if almanac[TOA] != toa {
                return None;
            }
            health[k] = almanac[HEALTH];
        }
        Some(AlmanacSet { toa, health })
    }
}
