// Made by tools/rust of crates/acquisition/src/search_room.rt: change that.
//! The room of a search.

use crate::kit::std::vec::Vec;
use crate::acquisition::bin_powers::BinPowers;
use crate::kit::std::alloc::{AllocError, Global};

/// Room for what one search works on. All of its memory is reserved when it is made. Nothing is
/// written there before a search has it, so that a system can leave it without pages until then.
#[derive(Debug)]
pub struct SearchRoom {
    /// The powers of the bin that is worked on, once there was a search; nothing before.
    pub(crate) powers: Vec<BinPowers>,
}

impl SearchRoom {
    /// Room for one search at a time.
    ///
    /// # Errors
    ///
    /// There is no memory.
    pub fn new(alloc: Global) -> Result<SearchRoom, AllocError> {
        Ok(SearchRoom {
            powers: Vec::with_capacity(alloc, 1)?,
        })
    }

    /// Puts the powers over no period there, whatever the search before left.
    pub(crate) fn begin(&mut self) {
        self.powers.clear();
        self.powers.push_reserved(BinPowers::new());
    }
}
