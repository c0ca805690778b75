// Made by tools/rust of crates/data_sets/src/ephemerides.rt: change that.
//! The sets of clock and ephemeris.

use crate::data_sets::last_pages::LastPages;
use crate::subframes::{FIELDS_OF_EPHEMERIS, Page};

/// The last pages of which a set is made, and the set that was reported last.
#[derive(Debug)]
pub struct Ephemerides {
    last: LastPages,
    reported: Option<[i64; FIELDS_OF_EPHEMERIS]>,
}

impl Ephemerides {
    /// The state before the first page.
    pub fn new() -> Self {
        Ephemerides {
            last: LastPages::new(),
            reported: None,
        }
    }

    /// Takes the next page, of whatever kind, and gives the set that is reported with it.
    pub fn take(&mut self, page: &Page) -> Option<[i64; FIELDS_OF_EPHEMERIS]> {
        if self.last.take(page) {
            let set = self.last.set();
            self.report(set)
        } else {
            None
        }
    }

    /// Gives the set that is there now, if one is, where it differs from the one reported last. It
    /// is the one reported last from then on.
    fn report(
        &mut self,
        set: Option<[i64; FIELDS_OF_EPHEMERIS]>,
    ) -> Option<[i64; FIELDS_OF_EPHEMERIS]> {
        let set = set?;
        if self.reported == Some(set) {
            return None;
        }
        self.reported = Some(set);
        Some(set)
    }
}
