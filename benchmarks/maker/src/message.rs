//! LNAV messages that pass their parity (IS-GPS-200, sections 20.3.3 and 20.3.5).

use crate::noise::Chance;

/// The words of a subframe, and the bits of a word as it is sent.
const WORDS: usize = 10;
const WORD_BITS: usize = 30;

/// The bits of data of a word.
const DATA_BITS: u32 = 24;

/// The issue of data of all subframes.
const ISSUE: u32 = 0x5a;

/// The places of the data bits that each parity bit sums (table 20-XIV), bit 1 the highest of 24,
/// and which of the last two bits of the word before it adds: 29 or 30.
const EQUATIONS: [(u32, u32); 6] = [
    (29, 0b1110_1100_0111_1100_1101_0010),
    (30, 0b0111_0110_0011_1110_0110_1001),
    (29, 0b1011_1011_0001_1111_0011_0100),
    (30, 0b0101_1101_1000_1111_1001_1010),
    (30, 0b1010_1110_1100_0111_1100_1101),
    (29, 0b0010_1101_1110_1010_0010_0111),
];

/// The 30 bits as they are sent of a word with this data, after a word that ended in `prior`.
fn sent_word(data: u32, prior: u32) -> u32 {
    let (d29, d30) = (prior >> 1 & 1, prior & 1);
    let parity = EQUATIONS.iter().fold(0, |bits, (star, places)| {
        let before = if *star == 29 { d29 } else { d30 };
        bits << 1 | ((data & places).count_ones() & 1) ^ before
    });
    let shown = if d30 == 1 { data ^ 0xff_ffff } else { data };
    shown << 6 | parity
}

/// A word whose last two bits are 0, by the choice of data bits 23 and 24.
fn solved_word(data: u32, prior: u32) -> u32 {
    let mut words = (0..4).map(|last| sent_word(data & !3 | last, prior));
    words.find(|word| word & 3 == 0).unwrap_or(0)
}

/// The data of a word by its number in its subframe, 1 to 10. What isn't given here is `drawn`.
fn data_of(subframe: u32, word: u32, drawn: u32) -> u32 {
    match (subframe, word) {
        (_, 1) => 0x8b << 16 | drawn & 0xffff,
        (_, 2) => (1000 + subframe) << 7 | subframe << 2,
        (1, 3) => drawn & !0x03, // the two high bits of the issue of data
        (1, 8) | (2, 3) | (3, 10) => ISSUE << 16 | drawn & 0xffff,
        _ => drawn,
    }
}

/// The 24 bits of data of each word of a subframe.
type Subframe = [u32; WORDS];

/// The bits of subframes as they are sent, one behind another, true for 1. Data bits 23 and 24 of
/// words 2 and 10 are solved for.
fn sent(subframes: impl Iterator<Item = Subframe>) -> Vec<bool> {
    let mut bits = Vec::new();
    let mut prior = 0;
    for (at, data) in subframes.flatten().enumerate() {
        let word = match at % WORDS {
            1 | 9 => solved_word(data, prior),
            _ => sent_word(data, prior),
        };
        bits.extend((0..WORD_BITS).rev().map(|place| word >> place & 1 == 1));
        prior = word & 3;
    }
    bits
}

/// A frame of five subframes that say nothing true. Its time-of-week counts don't go on when it is
/// sent again.
pub fn frame(chance: &mut Chance) -> Vec<bool> {
    let mut data_by_word =
        |id| std::array::from_fn(|at| data_of(id, at as u32 + 1, chance.bits() as u32 >> 8));
    let subframes: Vec<Subframe> = (1..=5).map(&mut data_by_word).collect();
    sent(subframes.into_iter())
}

/// The bits of a message that is written down: a subframe a line, as ten words of six hexadecimal
/// digits. Nothing comes back where a line is something else, or there is none.
pub fn written(text: &str) -> Option<Vec<bool>> {
    let subframes: Option<Vec<Subframe>> = text.lines().map(subframe).collect();
    subframes
        .filter(|them| !them.is_empty())
        .map(|them| sent(them.into_iter()))
}

/// A subframe by its line.
fn subframe(line: &str) -> Option<Subframe> {
    let word = |digits| {
        u32::from_str_radix(digits, 16)
            .ok()
            .filter(|it| it >> DATA_BITS == 0)
    };
    let words: Option<Vec<u32>> = line.split_whitespace().map(word).collect();
    words?.try_into().ok()
}
