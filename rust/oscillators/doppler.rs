// Made by tools/rust of crates/oscillators/src/doppler.rt: change that.
//! Doppler shifts of the carrier.

/// The greatest Doppler shift of the carrier in size, in Hz.
pub const MOST_DOPPLER: u32 = 16_000;

/// A Doppler shift of the carrier in Hz, -16,000 to 16,000. The range is this project's own.
#[derive(Clone, Copy, Debug, PartialEq, Eq, PartialOrd, Ord, Hash)]
pub struct Doppler(i32);

impl Doppler {
    /// The shift of that many Hz, or `None` outside -16,000 to 16,000.
    #[must_use]
    pub fn new(hz: i32) -> Option<Doppler> {
        if hz.unsigned_abs() <= MOST_DOPPLER {
            Some(Doppler(hz))
        } else {
            None
        }
    }

    /// The shift in Hz, -16,000 to 16,000.
    #[must_use]
    pub fn get(self) -> i32 {
        self.0
    }
}
