// Made by tools/rust of crates/bit_sync/src/bit_sum.rt: change that.
//! One data bit, summed push by push.

/// The code periods of one data bit (IS-GPS-200, section 3.2.2).
const PUSHES_OF_BIT: u8 = 20;

/// The greatest size of a push: of a sum over one code period.
pub const MOST_PUSH: u32 = 1 << 18;

/// The pushes of the data bit that isn't whole yet.
#[derive(Debug)]
pub struct BitSum {
    /// The number of pushes, fewer than `PUSHES_OF_BIT`.
    count: u8,
    sum: i32,
}

impl BitSum {
    /// Begins bit 0 with the push that is the edge.
    pub fn begun_with(ip: i32) -> Self {
        BitSum { count: 1, sum: ip }
    }

    /// Takes the next push, and gives the bit that is whole with it, if one is: `true` where its
    /// pushes sum up to less than zero.
    pub fn push(&mut self, ip: i32) -> Option<bool> {
        self.sum += ip;
        self.count += 1;
        if self.count < PUSHES_OF_BIT {
            return None;
        }
        let is_one = self.sum < 0;
        self.count = 0;
        self.sum = 0;
        Some(is_one)
    }
}
