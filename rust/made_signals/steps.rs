// Made by tools/rust of crates/made_signals/src/steps.rt: change that.
//! Steps of the phases with each sample, and the carrier's table. A chip is 1,540 cycles of the
//! carrier, and 1,023,000 chips come in a second (IS-GPS-200, section 3.3.1).

const COSINES: [i32; 8] = [2, 1, -1, -2, -2, -1, 1, 2];

/// The carrier's step in 2^-32 cycle, at a Doppler shift of v / 65536 Hz.
pub fn carrier_step(rate: u32, offset: i64, v: i64) -> u64 {
    let shift = offset.wrapping_mul(65_536).wrapping_add(v);
    quotient(shift.wrapping_mul(65_536), rate) % (1 << 32)
}

/// The code's step in 2^-32 chip, at that shift and a correction of w / 65536 chip a second.
pub fn code_step(rate: u32, v: i64, w: i64) -> u64 {
    let chips = (1_023_000i64 * 65_536)
        .wrapping_add(v.div_euclid(1540))
        .wrapping_add(w);
    quotient(chips.wrapping_mul(65_536), rate)
}

/// The quotient rounded toward minus infinity, modulo 2^64.
fn quotient(a: i64, rate: u32) -> u64 {
    a.div_euclid(i64::from(rate.max(1))) as u64
}

/// The cosine at a phase of the carrier in 2^-32 cycle, of which only the lower 32 bits count.
pub fn cosine(phase: u64) -> i32 {
    COSINES[(phase % (1 << 32) / (1 << 29)) as usize]
}
