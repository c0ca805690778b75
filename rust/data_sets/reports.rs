// Made by tools/rust of crates/data_sets/src/reports.rt: change that.
//! All that a page makes reported.

use crate::data_sets::almanac_set::AlmanacSet;
use crate::data_sets::report::Report;

/// What a page makes reported: a report of its own, and perhaps the almanacs of all satellites
/// after it.
#[derive(Clone, Copy, Debug, PartialEq, Eq)]
pub struct Reports {
    /// The page itself, or the set of clock and ephemeris that it completes.
    pub page: Option<Report>,
    /// The almanacs of all satellites, where the page completes or changes them.
    pub set: Option<AlmanacSet>,
}

impl Reports {
    /// No report, and no set of almanacs.
    pub const NONE: Reports = Reports {
        page: None,
        set: None,
    };
}
