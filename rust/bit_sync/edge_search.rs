// Made by tools/rust of crates/bit_sync/src/edge_search.rt: change that.
//! The search for the edge of the data bits.

/// Places in a bit: the 20 code periods of one (IS-GPS-200, section 3.2.2).
const BIT_PLACES: usize = 20;

/// With this number of changes at one place, the last of them is the edge. (This project's own, as
/// is all of the search.)
const EDGE_CHANGES: u8 = 16;

/// A place with this number of changes is a candidate.
const CANDIDATE_CHANGES: u8 = 4;

/// With this number of candidates all changes are counted anew.
const CROWDED_CANDIDATES: usize = 2;

/// The search for the first push of bit 0.
#[derive(Debug)]
pub struct EdgeSearch {
    /// The number of pushes, modulo `BIT_PLACES`, since there is no bound on it.
    place: usize,
    /// Whether the last push is below zero. Before the first push there is none.
    last: Option<bool>,
    /// The changes at each place since they were last counted anew.
    changes: [u8; BIT_PLACES],
}

impl EdgeSearch {
    /// The search before the first push.
    pub fn new() -> Self {
        EdgeSearch {
            place: 0,
            last: None,
            changes: [0; BIT_PLACES],
        }
    }

    /// Takes the next push and says whether it is the edge. Where it is, the search is over.
    pub fn push(&mut self, ip: i32) -> bool {
        let is_negative = ip < 0;
        let is_change = turns(self.last, is_negative);
        let place = self.place;
        self.last = Some(is_negative);
        self.place = (self.place + 1) % BIT_PLACES;
        if !is_change {
            return false;
        }
        let changes = self.changes[place] + 1;
        if changes == EDGE_CHANGES {
            return true;
        }
        self.changes[place] = changes;
        if is_crowded(&self.changes) {
            self.changes = [0; BIT_PLACES];
        }
        false
    }
}

/// Whether a push's sign isn't that of the push before it. The first push has none before it.
fn turns(last: Option<bool>, is_negative: bool) -> bool {
    match last {
        Some(last) => last != is_negative,
        None => false,
    }
}

/// Whether two places are candidates.
fn is_crowded(changes: &[u8; BIT_PLACES]) -> bool {
    changes.iter().filter(|n| **n >= CANDIDATE_CHANGES).count() >= CROWDED_CANDIDATES
}
