// Made by tools/rust of crates/data_sets/src/last_pages.rt: change that.
//! The last clock and ephemeris pages.

use crate::data_sets::issue::{are_of_one_issue, numbers_of_pages};
use crate::subframes::{FIELDS_OF_CLOCK, FIELDS_OF_EPH2, FIELDS_OF_EPH3, FIELDS_OF_EPHEMERIS, Page};

/// The numbers of the last clock page and of the last of both ephemeris pages.
#[derive(Debug)]
pub struct LastPages {
    clock: Option<[i64; FIELDS_OF_CLOCK]>,
    eph2: Option<[i64; FIELDS_OF_EPH2]>,
    eph3: Option<[i64; FIELDS_OF_EPH3]>,
}

impl LastPages {
    /// The state before the first page.
    pub fn new() -> Self {
        LastPages {
            clock: None,
            eph2: None,
            eph3: None,
        }
    }

    /// Takes the next page, and says whether it is a clock or an ephemeris page.
    pub fn take(&mut self, page: &Page) -> bool {
        match page {
            Page::Clock(numbers) => self.clock = Some(*numbers),
            Page::Eph2(numbers) => self.eph2 = Some(*numbers),
            Page::Eph3(numbers) => self.eph3 = Some(*numbers),
            _ => return false,
        }
        true
    }

    /// The numbers of the last clock page and of the last of both ephemeris pages, where all three
    /// are there and are of one issue of data.
    pub fn set(&self) -> Option<[i64; FIELDS_OF_EPHEMERIS]> {
        let clock = &self.clock?;
        let eph2 = &self.eph2?;
        let eph3 = &self.eph3?;
        if are_of_one_issue(clock, eph2, eph3) {
            Some(numbers_of_pages(clock, eph2, eph3))
        } else {
            None
        }
    }
}
