// Made by tools/rust of crates/channel_slots/src/stage.rt: change that.
//! What a slot follows.

use crate::channels::{Followed, Searched};

/// What a slot follows: nothing, a satellite that is searched for, or one that is found.
#[derive(Debug)]
pub enum Stage {
    Idle,
    Searching(Searched),
    Following(Followed),
}
