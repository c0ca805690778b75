// Made by tools/rust of crates/ca_codes/src/satellite.rt: change that.
//! The numbers of the satellites.


/// The greatest number of a satellite; the least is 1 (IS-GPS-200, section 3.2.1.3).
pub const LAST_PRN: u8 = 32;

/// The satellites that have a number.
pub(crate) const SATELLITES: usize = LAST_PRN as usize;

/// The number of a satellite's pseudorandom noise code, 1 to 32 (IS-GPS-200, section 3.2.1.3).
/// Clauses see it as a number.
#[derive(Clone, Copy, Debug, PartialEq, Eq, PartialOrd, Ord, Hash)]
pub struct Prn(u8);

/// A number that no satellite has: it is outside 1 to 32.
#[derive(Clone, Copy, Debug, PartialEq, Eq)]
pub struct PrnFault;

impl core::fmt::Display for PrnFault {
    fn fmt(&self, f: &mut core::fmt::Formatter<'_>) -> core::fmt::Result {
        f.write_str("a satellite's number is from 1 to 32")
    }
}

impl core::error::Error for PrnFault {}

impl Prn {
    /// The satellite of that number, or `None` outside 1 to 32.
    #[must_use]
    pub fn new(number: u8) -> Option<Prn> {
        if 1 <= number && number <= LAST_PRN {
            Some(Prn(number))
        } else {
            None
        }
    }

    /// The satellite's number, 1 to 32.
    #[must_use]
    pub fn get(self) -> u8 {
        self.0
    }
}

impl TryFrom<u8> for Prn {
    type Error = PrnFault;

    fn try_from(number: u8) -> Result<Prn, PrnFault> {
        Prn::new(number).ok_or(PrnFault)
    }
}
