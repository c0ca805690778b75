// Made by tools/rust of crates/recordings/src/stretch.rt: change that.
//! A stretch of a recording.

/// Which bytes of a recording that comes in pieces are wanted: those after some bytes, and at most
/// so many.
#[derive(Clone, Copy, Debug, PartialEq, Eq)]
pub struct Stretch {
    /// How many bytes are still to come before the first that is wanted.
    skip: u64,
    /// How many bytes are still wanted at most.
    left: u64,
}

impl Stretch {
    /// The bytes after the first `skip` bytes, at most `most` of them, of a recording of which
    /// nothing came yet.
    pub fn new(skip: u64, most: u64) -> Stretch {
        Stretch { skip, left: most }
    }

    /// What is wanted of the next piece.
    pub fn part<'a>(&mut self, piece: &'a [u8]) -> &'a [u8] {
        let skipped = self.skip.min(piece.len() as u64) as usize;
        let behind = &piece[skipped..];
        let wanted = self.left.min(behind.len() as u64) as usize;
        self.skip -= skipped as u64;
        self.left -= wanted as u64;
        &behind[..wanted]
    }

    /// Whether all that is wanted came.
    pub fn is_over(&self) -> bool {
        self.left == 0
    }
}
