//! The C/A codes (IS-GPS-200, section 3.3.2.3).
//!
//! The table is typed from the standard once more than in `ca_codes`: a wrong row there would find
//! its own signal here, and nothing would show it.

/// The chips of a code.
pub const CHIPS: usize = 1023;

/// The stages of the second register that make each satellite's code (table 3-Ia).
#[rustfmt::skip]
const STAGES: [(usize, usize); 32] = [
    (2, 6), (3, 7), (4, 8), (5, 9), (1, 9), (2, 10), (1, 8), (2, 9), (3, 10), (2, 3), (3, 4),
    (5, 6), (6, 7), (7, 8), (8, 9), (9, 10), (1, 4), (2, 5), (3, 6), (4, 7), (5, 8), (6, 9),
    (1, 3), (4, 6), (5, 7), (6, 8), (7, 9), (8, 10), (1, 6), (2, 7), (3, 8), (4, 9),
];

/// The signs of the chips of a satellite, 1 to 32.
pub fn chip_signs(satellite: usize) -> [f32; CHIPS] {
    let (one, other) = STAGES[satellite - 1];
    let (mut first, mut second) = ([1u8; 10], [1u8; 10]);
    let mut signs = [0.0; CHIPS];
    for sign in &mut signs {
        let chip = first[9] ^ second[one - 1] ^ second[other - 1];
        *sign = if chip == 1 { -1.0 } else { 1.0 };
        shift(&mut first, &[3, 10]);
        shift(&mut second, &[2, 3, 6, 8, 9, 10]);
    }
    signs
}

/// Shifts a register by one stage. The sum of the tapped stages, modulo 2, goes into stage 1.
fn shift(register: &mut [u8; 10], taps: &[usize]) {
    let input = taps.iter().fold(0, |sum, tap| sum ^ register[tap - 1]);
    register.rotate_right(1);
    register[0] = input;
}

#[cfg(test)]
mod tests {
    use super::chip_signs;

    /// The first ten chips of each satellite as octal numbers (IS-GPS-200, table 3-Ia).
    #[rustfmt::skip]
    const FIRST_CHIPS: [u32; 32] = [
        0o1440, 0o1620, 0o1710, 0o1744, 0o1133, 0o1455, 0o1131, 0o1454, 0o1626, 0o1504, 0o1642,
        0o1750, 0o1764, 0o1772, 0o1775, 0o1776, 0o1156, 0o1467, 0o1633, 0o1715, 0o1746, 0o1763,
        0o1063, 0o1706, 0o1743, 0o1761, 0o1770, 0o1774, 0o1127, 0o1453, 0o1625, 0o1712,
    ];

    #[test]
    fn codes_begin_as_in_the_table() {
        for (at, first) in FIRST_CHIPS.into_iter().enumerate() {
            let signs = chip_signs(at + 1);
            let chips = signs[..10]
                .iter()
                .fold(0, |bits, sign| bits << 1 | (*sign < 0.0) as u32);
            assert_eq!(chips, first, "satellite {}", at + 1);
        }
    }
}
