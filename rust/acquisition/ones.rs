// Made by tools/rust of crates/acquisition/src/ones.rt: change that.
//! The chips of a satellite's code that are 1.

use crate::acquisition::half_chip_table::LAST;
use crate::kit::arrayvec::ArrayVec;
use crate::ca_codes::{CODE_CHIPS, CodeBook, Prn};

/// Room for all chips of a code.
const MOST_ONES: usize = CODE_CHIPS as usize;

/// The chips of a satellite's code that are 1, by twos: where two follow one another, the first one
/// stands for both. Of each there is its place in a ring, for a code that begins at half chip 0.
#[derive(Debug)]
pub(crate) struct Ones {
    prn: Prn,
    alone: ArrayVec<u16, MOST_ONES>,
    twos: ArrayVec<u16, MOST_ONES>,
}

impl Ones {
    /// The chips of a satellite's code that are 1.
    pub(crate) fn new(prn: Prn, book: &mut CodeBook) -> Ones {
        let table = book.table(prn);
        let mut alone = ArrayVec::new();
        let mut twos = ArrayVec::new();
        let mut chip = 0;
        while chip < MOST_ONES {
            if table[chip + 1] != 255 {
                chip += 1;
            } else if chip + 1 < MOST_ONES && table[chip + 2] == 255 {
                twos.push(first_place(chip));
                chip += 2;
            } else {
                alone.push(first_place(chip));
                chip += 1;
            }
        }
        Ones { prn, alone, twos }
    }

    /// How many chips are 1.
    #[inline(always)]
    pub(crate) fn count(&self) -> usize {
        self.alone.len() + 2 * self.twos.len()
    }

    /// The places of those that are taken alone.
    #[inline(always)]
    pub(crate) fn alone(&self) -> &[u16] {
        self.alone.as_slice()
    }

    /// The place of the first one of each two.
    #[inline(always)]
    pub(crate) fn twos(&self) -> &[u16] {
        self.twos.as_slice()
    }
}

/// The place of a chip in a ring, for a code that begins at half chip 0.
#[inline(always)]
fn first_place(chip: usize) -> u16 {
    (LAST - 2 * chip) as u16
}
