// Made by tools/rust of crates/data_sets/src/data_sets.rt: change that.
//! The reports of a channel's pages.

use crate::data_sets::almanacs::Almanacs;
use crate::data_sets::ephemerides::Ephemerides;
use crate::data_sets::report::Report;
use crate::data_sets::reports::Reports;
use crate::subframes::Page;

/// What is kept of a channel's pages, to decide which reports the next page makes.
///
/// A clock page and the two ephemeris pages (subframes 1, 2 and 3) belong together where the low
/// eight bits of the clock's issue of data are the issue of data of both others (IS-GPS-200,
/// section 20.3.3.4.1). When their set is reported is this project's own. With each page of the
/// three kinds the last of each are compared. They are reported where they belong together and
/// differ in any number from the set that was reported last, or none was. A report uses no page up.
///
/// The almanacs of satellites 1 to 32 belong together where they have one time of applicability
/// (section 20.3.3.5.1.2). When they are reported is this project's own too. With each almanac the
/// last of each satellite are compared. They are reported where all are there, belong together and
/// differ in any number from the set that was reported last, or none was.
#[derive(Debug)]
pub struct DataSets {
    ephemerides: Ephemerides,
    almanacs: Almanacs,
}

impl DataSets {
    /// The state before the first page.
    #[must_use]
    pub fn new() -> Self {
        DataSets {
            ephemerides: Ephemerides::new(),
            almanacs: Almanacs::new(),
        }
    }

    /// Takes the next page and gives what it makes reported. With a clock or ephemeris page that is
    /// the set, if there is a new one, and with any other page that page. With an almanac it is the
    /// almanacs of all satellites too, if they are a new set. There may be any number of pages.
    pub fn take(&mut self, page: &Page) -> Reports {
        Reports {
            page: self.page_report(page),
            set: self.almanacs.take(page),
        }
    }

    /// Takes the next page and gives the report of the page itself, or of the set of clock and
    /// ephemeris that it completes.
    fn page_report(&mut self, page: &Page) -> Option<Report> {
        let set = self.ephemerides.take(page);
        match page {
            Page::Clock(_) | Page::Eph2(_) | Page::Eph3(_) => Some(Report::Eph(set?)),
            Page::Almanac(numbers) => Some(Report::Alm(*numbers)),
            Page::Utc(numbers) => Some(Report::Utc(*numbers)),
            Page::Health(numbers) => Some(Report::Hlt(*numbers)),
            Page::Message(characters) => Some(Report::Msg(*characters)),
        }
    }
}

impl Default for DataSets {
    /// The state before the first page.
    fn default() -> DataSets {
        DataSets::new()
    }
}
