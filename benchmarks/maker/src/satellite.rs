//! The signal of one satellite.

use crate::codes::{chip_signs, CHIPS};
use crate::message::frame;
use crate::noise::Chance;
use crate::settings::{Settings, DEVIATION};

/// A chip in units of the code's phase.
const CHIP: u64 = 1 << 48;
const CODE: u64 = CHIPS as u64 * CHIP;

/// The chips a second, and the carrier in Hz (IS-GPS-200, section 3.3.1).
const CHIP_RATE: f64 = 1_023_000.0;
pub const CARRIER: f64 = 1_575_420_000.0;

/// What the arguments say of a satellite.
pub struct Named {
    pub satellite: usize,
    /// Doppler shift in Hz.
    pub doppler: f64,
    /// The half chip of the code at sample 0.
    pub half_chip: f64,
    /// C/N0 in dB-Hz.
    pub density: f64,
    /// How many code periods of the message are over at sample 0.
    pub periods: u64,
}

/// A signal that is added to blocks of samples, one after another.
pub struct Satellite {
    signs: [f32; CHIPS],
    bits: Vec<bool>,
    amplitude: f32,
    code: u64,
    code_step: u64,
    periods: u64,
    turn: u64,
    turn_step: u64,
}

impl Satellite {
    pub fn new(named: &Named, settings: &Settings) -> Self {
        let (rate, offset) = settings.true_rate_and_offset();
        let seed = settings
            .seed
            .wrapping_mul(64)
            .wrapping_add(named.satellite as u64);
        // With a variance v in each part, noise has the density 2 v / rate in pairs and in real
        // samples. The power of an amplitude a is a^2 in pairs, and a^2 / 2 in real samples.
        let parts = if settings.pairs { 2.0 } else { 1.0 };
        let ratio = 10f64.powf(named.density / 10.0) / rate * 4.0 / parts;
        let turns = (offset + named.doppler) / rate;
        let chips = CHIP_RATE * (1.0 + named.doppler / CARRIER) / rate;
        Satellite {
            signs: chip_signs(named.satellite),
            bits: settings
                .message
                .clone()
                .unwrap_or_else(|| frame(&mut Chance::new(seed ^ 0x6d65_7373_6167_6500))),
            amplitude: DEVIATION * ratio.sqrt() as f32,
            code: (named.half_chip / 2.0 * CHIP as f64) as u64 % CODE,
            code_step: (chips * CHIP as f64).round() as u64,
            periods: named.periods,
            turn: 0,
            turn_step: (turns.rem_euclid(1.0) * 2f64.powi(64)) as u64,
        }
    }

    /// The amplitude with the sign of the data bit that is being sent.
    fn level(&self) -> f32 {
        let place = (self.periods / 20) as usize % self.bits.len();
        if self.bits[place] {
            -self.amplitude
        } else {
            self.amplitude
        }
    }

    /// Adds the next samples to a block, where each is cosine and sine. `waves` has the cosines of
    /// one turn in equal steps, a power of two of them.
    pub fn add_to(&mut self, block: &mut [(f32, f32)], waves: &[f32]) {
        let (mask, quarter) = (waves.len() - 1, waves.len() / 4);
        let shift = 64 - waves.len().trailing_zeros();
        let mut level = self.level();
        for (i, q) in block {
            let size = level * self.signs[(self.code / CHIP) as usize];
            let at = (self.turn >> shift) as usize;
            *i += size * waves[at];
            *q += size * waves[at.wrapping_sub(quarter) & mask];
            self.turn = self.turn.wrapping_add(self.turn_step);
            self.code += self.code_step;
            if self.code >= CODE {
                self.code -= CODE;
                self.periods += 1;
                level = self.level();
            }
        }
    }
}
