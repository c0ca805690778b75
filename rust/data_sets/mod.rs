// Made by tools/rust of crates/data_sets/src/lib.rt: change that.
//! What the pages of a satellite's message make reported (IS-GPS-200, section 20.3.3).
//!
//! [`DataSets`] takes the pages of a channel one by one. The clock and the two ephemeris pages are
//! reported as one set where they are of one issue of data, and once as long as it stays the same.
//! A page of any other kind is reported each time. After an almanac the almanacs of all satellites
//! are reported as an [`AlmanacSet`], where they are all for one time and not those reported last.
//! The crate promises that the [`Reports`] of each page are what the definition makes of all the
//! pages so far, however many there are. A [`Report`] gives its numbers in the order of its fields,
//! or one by the name of its field.
//!
#![cfg_attr(feature = "internals", doc = "```")]
#![cfg_attr(not(feature = "internals"), doc = "```ignore")]
//! # fn main() -> Result<(), std::boxed::Box<dyn core::error::Error>> {
//! use seldomplough::internals::data_sets::DataSets;
//! use seldomplough::internals::frame_sync::Subframe;
//! use seldomplough::internals::subframes::{ClockField, Field, Page};
//!
//! fn show(sets: &mut DataSets, subframe: &Subframe) {
//!     let Some(page) = Page::read(subframe) else { return };
//!     let reports = sets.take(&page);
//!     // The clock and ephemeris come with the last of their three pages.
//!     if let Some(report) = reports.page {
//!         let issue = report.value(Field::Clock(ClockField::Iodc));
//!         let all = report.fields().iter().zip(report.values());
//!     }
//!     // The almanacs of all satellites come with the last of the 32.
//!     if let Some(set) = reports.set {
//!         let health_of_first = set.health[0];
//!     }
//! }
//! # Ok(())
//! # }
//! ```

mod almanac_set;
mod almanacs;
mod data_sets;
mod ephemerides;
mod issue;
mod last_pages;
mod report;
mod reports;

pub use almanac_set::{AlmanacSet, SATELLITES};
pub use data_sets::DataSets;
pub use report::Report;
pub use reports::Reports;
