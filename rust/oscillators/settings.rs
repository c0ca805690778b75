// Made by tools/rust of crates/oscillators/src/settings.rt: change that.
//! What is known of a recording, and the steps of its oscillators.

use crate::sample_planes::Format;

/// The least rate of a recording, in samples a second: two samples for each chip.
pub const LEAST_RATE: u32 = 2_046_000;

/// The greatest rate of a recording, in samples a second.
pub const MOST_RATE: u32 = 20_000_000;

/// The fewest whole samples that a millisecond has.
pub const LEAST_PER_MS: u32 = 2_046;

/// The most whole samples that a millisecond has.
pub const MOST_PER_MS: u32 = 20_000;

/// The greatest Doppler shift that a step is asked for, in 1/65536 Hz: 16,384 Hz.
pub const MOST_SHIFT: u32 = 1 << 30;

/// The greatest correction of the code's rate, in 1/65536 chip a second: one chip a second.
pub const MOST_CORRECTION: u32 = 65_536;

/// The least step of the code, in 2^-32 chip.
pub const LEAST_CODE_STEP: u32 = 219_685_077;

/// The greatest step of the code, in 2^-32 chip.
pub const MOST_CODE_STEP: u32 = 2_147_508_080;

/// Why settings are refused. The rate is checked first.
#[non_exhaustive]
#[derive(Clone, Copy, Debug, PartialEq, Eq)]
pub enum SettingsFault {
    /// The rate is outside 2,046,000 to 20,000,000 samples a second.
    Rate,
    /// Twice the size of the intermediate frequency is above the rate.
    Offset,
}

impl core::fmt::Display for SettingsFault {
    fn fmt(&self, f: &mut core::fmt::Formatter<'_>) -> core::fmt::Result {
        match self {
            SettingsFault::Rate => f.write_str("the rate is from 2046000 to 20000000 samples a second"),
            SettingsFault::Offset => f.write_str("the offset is at most half the rate in size"),
        }
    }
}

impl core::error::Error for SettingsFault {}

/// What is known of a recording: its rate in samples a second, the intermediate frequency that the
/// L1 carrier was brought to, in Hz, and how its samples are packed. The ranges are this project's
/// own.
#[derive(Clone, Copy, Debug, PartialEq, Eq)]
pub struct Settings {
    rate: u32,
    offset: i64,
    format: Format,
}

impl Settings {
    /// Settings of `rate` samples a second, 2,046,000 to 20,000,000, and an intermediate frequency
    /// of `offset` Hz, of either sign, at most half the rate in size.
    ///
    /// # Errors
    ///
    /// The rate is outside its range, which is checked first, or the offset is too large.
    pub fn new(rate: u32, offset: i64, format: Format) -> Result<Settings, SettingsFault> {
        if rate < LEAST_RATE || MOST_RATE < rate {
            return Err(SettingsFault::Rate);
        }
        // Twice the offset may leave its type, so the rate is halved.
        let most = (rate / 2) as i64;
        if offset < -most || most < offset {
            return Err(SettingsFault::Offset);
        }
        Ok(Settings {
            rate,
            offset,
            format,
        })
    }

    /// Samples a second, 2,046,000 to 20,000,000.
    #[must_use]
    pub fn rate(&self) -> u32 {
        self.rate
    }

    /// The intermediate frequency in Hz, at most half the rate in size.
    #[must_use]
    pub fn offset(&self) -> i64 {
        self.offset
    }

    /// How the samples are packed.
    #[must_use]
    pub fn format(&self) -> Format {
        self.format
    }

    /// How many whole samples a millisecond has: 2,046 to 20,000.
    #[must_use]
    pub fn per_ms(&self) -> u32 {
        self.rate / 1000
    }

    /// How far a sample takes the carrier's phase, in 2^-32 cycle, modulo a cycle. The Doppler
    /// shift `v` is in 1/65536 Hz, at most 2^30 in size; it adds to the intermediate frequency.
    /// Rounded down, below zero too.
    ///
    /// # Panics
    ///
    /// Plain Rust panics where `v` is larger.
    #[must_use]
    pub fn carrier_step(&self, v: i64) -> u32 {
        assert!(
            v.unsigned_abs() <= u64::from(MOST_SHIFT),
            "Settings::carrier_step requires |v| <= MOST_SHIFT"
        );
        let turns = (self.offset * 65_536 + v) * 65_536;
        turns.div_euclid(self.rate as i64).rem_euclid(1 << 32) as u32
    }

    /// How far a sample takes the code's phase, in 2^-32 chip. The Doppler shift `v` of the carrier
    /// is in 1/65536 Hz, at most 2^30 in size, and `w`, in 1/65536 chip a second and at most 65,536
    /// in size, corrects the code's rate. A chip is 1,540 cycles of the carrier, and 1,023,000
    /// chips come in a second (IS-GPS-200, section 3.3.1). Rounded down, in the part of `v` and as
    /// a whole.
    ///
    /// # Panics
    ///
    /// Plain Rust panics where `v` or `w` is larger.
    #[must_use]
    pub fn code_step(&self, v: i64, w: i64) -> u32 {
        assert!(
            v.unsigned_abs() <= u64::from(MOST_SHIFT)
                && w.unsigned_abs() <= u64::from(MOST_CORRECTION),
            "Settings::code_step requires |v| <= MOST_SHIFT and |w| <= MOST_CORRECTION"
        );
        let chips = 1_023_000 * 65_536 + v.div_euclid(1_540) + w;
        (chips * 65_536).div_euclid(self.rate as i64) as u32
    }
}
