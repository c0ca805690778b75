// Made by tools/rust of crates/nav_parity/src/parity.rt: change that.
//! Words and their data. A word has 30 bits, D1 to D30, and D1 is sent first: it is bit 29 of the
//! number, and D30 is bit 0. The data d1 to d24 are sent as D1 to D24, all inverted where the word
//! before ended in a 1, and D25 to D30 are the parity.

/// A word, D1 to D30 as a number with D30 lowest, is below this (IS-GPS-200, section 20.3.5).
pub const WORD_LIMIT: u32 = 1 << 30;

/// The data of a word, d1 to d24 as a number with d24 lowest, are below this (IS-GPS-200, section
/// 20.3.5).
pub const DATA_LIMIT: u32 = 1 << 24;

/// The last two bits of a word as the number 2 * D29 + D30, by which the next word is checked, are
/// below this (IS-GPS-200, section 20.3.5).
pub const PRIOR_LIMIT: u8 = 4;

/// D25 to D30 of a word as a number with D30 lowest are below this.
const PARITY_LIMIT: u32 = 1 << PARITY_WIDTH;

const PARITY_WIDTH: u32 = 6;

const PARITY_MASK: u32 = 0x3f;

const DATA_WIDTH: u32 = 24;

const DATA_MASK: u32 = 0xff_ffff;

/// A row of the table as a mask: D29* (bit 25) or D30* (bit 24), by its number, and then those of
/// d1 (bit 23) to d24 (bit 0) that the row sums.
macro_rules! sum_of {
    ($star:literal; $($place:literal),*) => {
        1 << (DATA_WIDTH + 30 - $star) $(| 1 << (DATA_WIDTH - $place))*
    };
}

/// What each of D25 to D30 is the sum of, modulo 2: table 20-XIV of IS-GPS-200.
const SUMMED: [u32; 6] = [
    sum_of!(29; 1, 2, 3, 5, 6, 10, 11, 12, 13, 14, 17, 18, 20, 23),
    sum_of!(30; 2, 3, 4, 6, 7, 11, 12, 13, 14, 15, 18, 19, 21, 24),
    sum_of!(29; 1, 3, 4, 5, 7, 8, 12, 13, 14, 15, 16, 19, 20, 22),
    sum_of!(30; 2, 4, 5, 6, 8, 9, 13, 14, 15, 16, 17, 20, 21, 23),
    sum_of!(30; 1, 3, 5, 6, 7, 9, 10, 14, 15, 16, 17, 18, 21, 22, 24),
    sum_of!(29; 3, 5, 6, 8, 9, 10, 11, 13, 15, 19, 22, 23, 24),
];

/// The data of a word, d1 to d24 with d24 lowest, or `None` where one of the six parity equations
/// does not hold (IS-GPS-200, section 20.3.5). Bit 29 of `word` is D1 and bit 0 is D30; `prior` is
/// the last two bits of the word before, 2 * D29* + D30*.
///
/// # Panics
///
/// Plain Rust panics where the word has more than 30 bits, or the prior more than two.
#[must_use]
pub fn check(word: u32, prior: u8) -> Option<u32> {
    assert!(word < WORD_LIMIT, "check requires word < WORD_LIMIT");
    assert!(prior < PRIOR_LIMIT, "check requires prior < PRIOR_LIMIT");
    let data = (word >> PARITY_WIDTH) ^ inversion(prior);
    if word & PARITY_MASK == parity_bits(data, prior) {
        Some(data)
    } else {
        None
    }
}

/// The one word that passes with `prior` (2 * D29* + D30*) and has these data, d1 to d24 with d24
/// lowest. Bit 29 of the word is D1 and bit 0 is D30 (IS-GPS-200, section 20.3.5).
///
/// # Panics
///
/// Plain Rust panics where the data have more than 24 bits, or the prior more than two.
#[must_use]
pub fn encode(data: u32, prior: u8) -> u32 {
    assert!(data < DATA_LIMIT, "encode requires data < DATA_LIMIT");
    assert!(prior < PRIOR_LIMIT, "encode requires prior < PRIOR_LIMIT");
    ((data ^ inversion(prior)) << PARITY_WIDTH) | parity_bits(data, prior)
}

/// What turns the data into the bits that are sent: all ones where the word before ended in a 1.
fn inversion(prior: u8) -> u32 {
    if prior & 1 == 1 { DATA_MASK } else { 0 }
}

/// D25 to D30 for these data, D30 lowest.
fn parity_bits(data: u32, prior: u8) -> u32 {
    assert!(data < DATA_LIMIT, "parity_bits requires data < DATA_LIMIT");
    assert!(
        prior < PRIOR_LIMIT,
        "parity_bits requires prior < PRIOR_LIMIT"
    );
    let summed = (u32::from(prior) << DATA_WIDTH) | data;
    let mut bits = 0;
    for mask in SUMMED {
        bits = (bits << 1) | ((summed & mask).count_ones() & 1);
    }
    bits
}
