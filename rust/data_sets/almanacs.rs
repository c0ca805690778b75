// Made by tools/rust of crates/data_sets/src/almanacs.rt: change that.
//! The sets of almanacs.

use crate::data_sets::almanac_set::{AlmanacSet, SATELLITES};
use crate::subframes::{AlmanacField, FIELDS_OF_ALMANAC, Page};

/// Where the number of the satellite stands among the numbers of an almanac.
const SV: usize = AlmanacField::Sv as usize;

/// The last almanac of each of the satellites 1 to 32, and those of the set that was reported last.
#[derive(Debug)]
pub struct Almanacs {
    last: [Option<[i64; FIELDS_OF_ALMANAC]>; SATELLITES],
    reported: [Option<[i64; FIELDS_OF_ALMANAC]>; SATELLITES],
}

impl Almanacs {
    /// The almanacs of no pages.
    pub fn new() -> Self {
        Almanacs {
            last: [None; SATELLITES],
            reported: [None; SATELLITES],
        }
    }

    /// Takes the next page, of whatever kind, and gives the set that is reported with it.
    pub fn take(&mut self, page: &Page) -> Option<AlmanacSet> {
        let Page::Almanac(numbers) = page else {
            return None;
        };
        self.keep(numbers);
        let set = AlmanacSet::of(&self.last)?;
        if self.last == self.reported {
            return None;
        }
        self.reported = self.last;
        Some(set)
    }

    /// Keeps an almanac as the last of its satellite, if that is one of 1 to 32.
    fn keep(&mut self, numbers: &[i64; FIELDS_OF_ALMANAC]) {
        let sv = numbers[SV];
        if 1 <= sv && sv <= SATELLITES as i64 {
            self.last[sv as usize - 1] = Some(*numbers);
        }
    }
}
