// Made by tools/rust of crates/packer/src/decimals.rt: change that.
//! Numbers as decimals.

use crate::kit::std::fmt::{self, Display, Formatter};

/// A number by its halves: printed as `12` or `-3.5`.
#[derive(Clone, Copy, Debug, PartialEq, Eq)]
pub struct Halves(pub i64);

impl Display for Halves {
    fn fmt(&self, f: &mut Formatter) -> fmt::Result {
        let sign = if self.0 < 0 { "-" } else { "" };
        let size = self.0.unsigned_abs();
        write!(
            f,
            "{sign}{}{}",
            size / 2,
            if size % 2 == 0 { "" } else { ".5" }
        )
    }
}

/// A number by its hundredths: printed as `-0.25`.
#[derive(Clone, Copy, Debug, PartialEq, Eq)]
pub struct Hundredths(pub i64);

impl Display for Hundredths {
    fn fmt(&self, f: &mut Formatter) -> fmt::Result {
        let sign = if self.0 < 0 { "-" } else { "" };
        let size = self.0.unsigned_abs();
        write!(f, "{sign}{}.{:02}", size / 100, size % 100)
    }
}
