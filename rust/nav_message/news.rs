// Made by tools/rust of crates/nav_message/src/news.rt: change that.
//! What a push makes a message report.

use crate::data_sets::Reports;
use crate::frame_sync::Found;

/// What a prompt sum makes a message report.
#[derive(Clone, Copy, Debug, PartialEq, Eq)]
pub enum MessageNews {
    /// Nothing is reported.
    Nothing,
    /// The edge of the data bits is found.
    Edge,
    /// A subframe is whole, and perhaps its page, or a set that the page completes, is reported.
    Frame {
        /// The subframe, and the gap before it.
        found: Found,
        /// What the subframe's page makes reported.
        reports: Reports,
    },
}

impl MessageNews {
    /// Makes the news report nothing. They are large, so they're written only where they report
    /// something.
    pub fn clear(&mut self) {
        if !matches!(self, MessageNews::Nothing) {
            *self = MessageNews::Nothing;
        }
    }
}
