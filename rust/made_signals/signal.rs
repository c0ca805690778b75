// Made by tools/rust of crates/made_signals/src/signal.rt: change that.
//! The signal of one satellite.

use crate::made_signals::chip_signs::{CYCLE, ChipSigns, HALF_CHIP};
use crate::made_signals::steps::{carrier_step, code_step, cosine};

/// The signal of one satellite in two-bit real samples, without noise.
///
/// At sample 0 the code is at `half_chip`, and the carrier's phase is 0. Steps stay as they are
/// there.
#[derive(Clone, Copy)]
pub struct MadeSignal<'a> {
    /// Samples a second.
    pub rate: u32,
    /// The intermediate frequency in Hz.
    pub offset: i64,
    /// The satellite's number, 1 to 32.
    pub satellite: u8,
    /// The Doppler shift in Hz.
    pub doppler: i32,
    /// The half chip of the code at sample 0, 0 to 2045.
    pub half_chip: u16,
    /// How many data bits 0, 1, 0, 1, .. come before those of the list.
    pub alternations: u64,
    /// The data bits after them, of 20 code periods each. After these all are 0.
    pub bits: &'a [bool],
}

impl<'a> MadeSignal<'a> {
    /// Satellite 7 at half chip 100 and a shift of 1,000 Hz, in 2,500,000 samples a second at an
    /// intermediate frequency of 610,000 Hz. Its data bits are 40 that alternate, then a tail.
    pub fn with_tail(tail: &'a [bool]) -> Self {
        MadeSignal {
            rate: 2_500_000,
            offset: 610_000,
            satellite: 7,
            doppler: 1_000,
            half_chip: 100,
            alternations: 40,
            bits: tail,
        }
    }

    /// The value of a sample by its number: 1, 3, -1 or -3.
    ///
    /// Its sign is that of the cosine times that of the chip, turned where the data bit is 1. Its
    /// size is 3 where that of the cosine is 2.
    pub fn value(&self, signs: &ChipSigns, number: u64) -> i32 {
        let v = self.shift();
        let code = self
            .code_phase()
            .wrapping_add(number.wrapping_mul(code_step(self.rate, v, 0)));
        let cos = cosine(number.wrapping_mul(carrier_step(self.rate, self.offset, v)));
        let is_below = (cos < 0) ^ (signs.at(code) < 0) ^ self.bit(code / CYCLE / 20);
        let size = if cos == 2 || cos == -2 { 3 } else { 1 };
        if is_below { -size } else { size }
    }

    /// The Doppler shift in 1/65536 Hz.
    pub(crate) fn shift(&self) -> i64 {
        i64::from(self.doppler).wrapping_mul(65_536)
    }

    /// The code's phase at sample 0, in 2^-32 chip.
    pub(crate) fn code_phase(&self) -> u64 {
        u64::from(self.half_chip).wrapping_mul(HALF_CHIP)
    }

    /// A data bit by its number.
    fn bit(&self, number: u64) -> bool {
        match number.checked_sub(self.alternations) {
            None => number % 2 == 1,
            Some(place) => match usize::try_from(place) {
                Ok(place) => self.bits.get(place).copied().unwrap_or(false),
                Err(_) => false,
            },
        }
    }
}
