// Made by tools/rust of crates/satellite_tests/src/almanacs.rt: change that.
//! Almanacs as they are sent, and what they make reported.

use crate::kit::std::panic;
use crate::satellite_tests::asserted::assert_same_at;
use crate::satellite_tests::sent::{FIFTH_HANDOVER, TELEMETRY, ended};
use crate::data_sets::{AlmanacSet, Report, Reports};
use crate::nav_message::MessageNews;
use crate::nav_parity::encode;
use crate::kit::std::process::Abort;

/// The almanac of a satellite, whose other values are 0.
#[derive(Clone, Copy)]
pub struct Almanac {
    pub satellite: u8,
    pub toa: u8,
    pub health: u8,
}

impl Almanac {
    /// The words of its subframe 5, as they are sent. The satellite stands in word 3 after the data
    /// ID 1, the time of applicability begins word 4, and the health ends word 5. The last two data
    /// bits are such that the subframe ends in two bits 0.
    pub fn words(self) -> [u32; 10] {
        let mut words = [0; 10];
        words[0] = TELEMETRY;
        words[1] = FIFTH_HANDOVER;
        words[2] = 0x40_0000 | u32::from(self.satellite) << 16;
        words[3] = u32::from(self.toa) << 16;
        words[4] = u32::from(self.health);
        for k in 2..9usize {
            words[k] = after(words[k], words[k - 1]);
        }
        words[9] = ended(0, (words[8] % 4) as u8);
        words
    }

    /// Asserts that it is reported, with this set.
    pub fn assert_reported(self, rt: &impl Abort, news: &MessageNews, set: Option<AlmanacSet>) {
        let MessageNews::Frame { reports, .. } = *news else {
            panic!(*rt; "no subframe");
        };
        let (sv, toa, health) = (self.satellite.into(), self.toa.into(), self.health.into());
        let page = Some(Report::Alm([1, sv, 0, toa, 0, 0, health, 0, 0, 0, 0, 0, 0]));
        assert_same_at(rt, self.satellite, reports, Reports { page, set });
    }
}

/// The word with these data after another one.
fn after(source: u32, before: u32) -> u32 {
    encode(source & 0xff_ffff, (before % 4) as u8)
}
