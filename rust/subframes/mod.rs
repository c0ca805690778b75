// Made by tools/rust of crates/subframes/src/lib.rt: change that.
//! The numbers of the GPS navigation message (IS-GPS-200, section 20.3.3).
//!
//! [`field`] reads one [`Field`] of a subframe, and [`Page::read`] a whole [`Page`] where the
//! subframe is complete and its kind is known. Both go by tables of the standard's own bit numbers,
//! and promise the number that the bits of the definitions' table write, in two's complement where
//! the standard marks it. The rows of the tables are proved to be those of the definitions.
//!
#![cfg_attr(feature = "internals", doc = "```")]
#![cfg_attr(not(feature = "internals"), doc = "```ignore")]
//! # fn main() -> Result<(), std::boxed::Box<dyn core::error::Error>> {
//! use seldomplough::internals::frame_sync::Subframe;
//! use seldomplough::internals::subframes::{ClockField, Field, Page, field};
//!
//! fn show(subframe: &Subframe) {
//!     // The group delay in 2^-31 s, wherever its own word is there.
//!     let delay = field(subframe, Field::Clock(ClockField::Tgd));
//!     // The numbers of a complete subframe: one by its name, and all in their fields' order.
//!     if let Some(page) = Page::read(subframe) {
//!         let week = page.value(Field::Clock(ClockField::Wn));
//!         for (field, number) in page.kind().fields().iter().zip(page.values()) {
//!             let unit = field.exponent();
//!         }
//!     }
//! }
//! # Ok(())
//! # }
//! ```

mod almanac;
mod clock;
mod ephemeris;
mod fields;
mod health;
mod kind;
mod layout;
mod message;
mod page;
mod reading;
mod rows;
mod utc;

pub use almanac::{AlmanacField, FIELDS_OF_ALMANAC};
pub use clock::{ClockField, FIELDS_OF_CLOCK};
pub use ephemeris::{
    Eph2Field, Eph3Field, FIELDS_OF_EPH2, FIELDS_OF_EPH3, FIELDS_OF_EPHEMERIS, ephemeris_fields,
};
pub use fields::Field;
pub use health::{FIELDS_OF_HEALTH, HealthField};
pub use kind::Kind;
pub use message::CHARACTERS_OF_MESSAGE;
pub use page::Page;
pub use reading::field;
pub use utc::{FIELDS_OF_UTC, UtcField};
