// Made by tools/rust of crates/nav_message/src/lib.rt: change that.
//! The navigation message of one satellite, from the lock of its loops on (IS-GPS-200, section 20).
//!
//! [`Message`] takes the prompt sums of a locked channel one by one. It finds the data bits, their
//! subframes, the pages of these and the sets that the pages make. What each push reports is proved
//! to be what the definition makes of all pushes so far.
//!
#![cfg_attr(feature = "internals", doc = "```")]
#![cfg_attr(not(feature = "internals"), doc = "```ignore")]
//! # fn main() -> Result<(), std::boxed::Box<dyn core::error::Error>> {
//! use seldomplough::internals::nav_message::{Message, MessageNews};
//!
//! // The prompt sums of dumps since the lock.
//! let (mut message, mut news) = (Message::new(), MessageNews::Nothing);
//! let (mut edges, mut pages) = (0, 0);
//! for ip in [900, 870, 910, -880, -905] {
//!     message.push(ip, &mut news);
//!     match &news {
//!         MessageNews::Nothing => {}
//!         MessageNews::Edge => edges += 1,
//!         MessageNews::Frame { reports, .. } => pages += u32::from(reports.page.is_some()),
//!     }
//! }
//! # Ok(())
//! # }
//! ```

mod message;
mod news;

pub use message::{MOST_BITS, Message};
pub use news::MessageNews;
