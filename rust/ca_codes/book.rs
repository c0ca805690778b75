// Made by tools/rust of crates/ca_codes/src/book.rt: change that.
//! The codes of all satellites, made as they are asked for.

use crate::ca_codes::registers::Registers;
use crate::ca_codes::satellite::{Prn, SATELLITES};
use crate::bit_planes::{TOP_BIT, WORD_PLACES, bit_of_each, pick_from_four};
use crate::kit::lanes::*;

/// The chips of a code (IS-GPS-200, section 3.3.2.3).
pub const CODE_CHIPS: u32 = 1023;

/// The words of 64 chips that hold a code of 1,023.
pub(crate) const WORDS: usize = 16;

/// The bytes of a satellite's table: its last chip, its 1,023 chips, and the first ones again, so
/// that 64 in a row never wrap.
pub const TABLE: usize = 1088;

/// The numbers of four times sixteen chips in a row, each time the first of them in the highest
/// lane.
const DOWNWARD: [u8; WORD_PLACES] = [
    15, 14, 13, 12, 11, 10, 9, 8, 7, 6, 5, 4, 3, 2, 1, 0, 15, 14, 13, 12, 11, 10, 9, 8, 7, 6, 5, 4,
    3, 2, 1, 0, 15, 14, 13, 12, 11, 10, 9, 8, 7, 6, 5, 4, 3, 2, 1, 0, 15, 14, 13, 12, 11, 10, 9, 8,
    7, 6, 5, 4, 3, 2, 1, 0,
];

/// The codes of all 32 satellites, each made when it is first used. Whatever a book was asked
/// before, it stands for the codes of the standard; so clauses see nothing else of it. A clone
/// keeps the codes that were made.
#[derive(Clone, Debug)]
pub struct CodeBook {
    /// For satellite k in entry k - 1, by the number of a chip: the mask of the chip before it.
    entries: [[u8; TABLE]; SATELLITES],
    is_filled: [bool; SATELLITES],
}

impl CodeBook {
    /// A book that has made no code yet.
    #[must_use]
    pub fn new() -> CodeBook {
        CodeBook {
            entries: [[0; TABLE]; SATELLITES],
            is_filled: [false; SATELLITES],
        }
    }

    /// Chip `n` mod 1,023 of a satellite's code: true for 1.
    pub fn chip(&mut self, prn: Prn, n: u32) -> bool {
        let k = ready_entry(&mut self.entries, &mut self.is_filled, prn);
        self.entries[k][place_of(n) + 1] == 255
    }

    /// 64 chips of a satellite's code in a row, from chip `first` mod 1,023 on: chip `first` + i is
    /// bit 63 - i.
    pub fn window(&mut self, prn: Prn, first: u32) -> u64 {
        let start = place_of(first) + 1;
        let from = [start + 48, start + 32, start + 16, start];
        let masks = look_up(self.table(prn), from, u8x64::from_array(DOWNWARD));
        bit_of_each(masks, TOP_BIT)
    }

    /// A satellite's code (IS-GPS-200, section 3.3.2.3) as a table of masks, 255 for chip 1 and 0
    /// for chip 0. Byte k has the chip before chip k, so byte 0 has the last one. `look_up` takes
    /// 64 of them at once. The book stands for the codes as before.
    #[inline(always)]
    pub fn table(&mut self, prn: Prn) -> &[u8; TABLE] {
        let k = ready_entry(&mut self.entries, &mut self.is_filled, prn);
        let entries = &self.entries;
        &entries[k]
    }
}

impl Default for CodeBook {
    /// A book that has made no code yet.
    fn default() -> CodeBook {
        CodeBook::new()
    }
}

/// Masks of 64 chips of the satellite that `CodeBook::table` gave a table of: 255 for chip 1 and 0
/// for chip 0. Each sixteen lanes count from a chip of their own, `first`, which is at most 1,072.
/// A lane has the chip before the one of its number. Lanes' numbers are below 16.
#[inline(always)]
pub fn look_up(table: &[u8; TABLE], first: [usize; 4], numbers: u8x64) -> u8x64 {
    pick_from_four(table, first, numbers)
}

/// The place of a satellite's entry, which is filled if it wasn't.
#[inline(always)]
fn ready_entry(
    entries: &mut [[u8; TABLE]; SATELLITES],
    is_filled: &mut [bool; SATELLITES],
    prn: Prn,
) -> usize {
    let k = (prn.get() - 1) as usize;
    if !is_filled[k] {
        fill_entry(entries, is_filled, k, prn);
    }
    k
}

/// Fills a satellite's entry. It is done once a satellite, and stands apart so that a look-up stays
/// short.
#[cold]
#[inline(never)]
fn fill_entry(
    entries: &mut [[u8; TABLE]; SATELLITES],
    is_filled: &mut [bool; SATELLITES],
    k: usize,
    prn: Prn,
) {
    entries[k] = table_of(prn);
    is_filled[k] = true;
}

/// The number of a chip within one period. Most numbers are, and a division would cost more than
/// the chip.
fn place_of(n: u32) -> usize {
    let place = if n < CODE_CHIPS { n } else { n % CODE_CHIPS };
    place as usize
}

/// A satellite's table.
fn table_of(prn: Prn) -> [u8; TABLE] {
    let words = code_of(prn);
    let mut table = [0; TABLE];
    for k in 0..TABLE {
        table[k] = 255 * chip_in(&words, (k + 1022) % 1023);
    }
    table
}

/// A chip of a code in words.
fn chip_in(words: &[u64; WORDS], n: usize) -> u8 {
    ((words[n / 64] >> (63 - n % 64)) & 1) as u8
}

/// The 1,023 chips of a satellite's code, and the first one again after them.
fn code_of(prn: Prn) -> [u64; WORDS] {
    let mut registers = Registers::start();
    let mut words = [0; WORDS];
    for w in 0..WORDS {
        words[w] = registers.next_chips(prn);
    }
    words
}
