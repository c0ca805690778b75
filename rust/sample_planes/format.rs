// Made by tools/rust of crates/sample_planes/src/format.rt: change that.
//! The packings of samples into bytes.

/// The bits of a byte.
pub(crate) const BYTE_BITS: usize = 8;

/// The most bits that a sample has.
pub(crate) const MOST_WIDTH: usize = 4;

/// How samples are packed into bytes. The earliest sample of a byte stands in its top bits.
#[derive(Clone, Copy, Debug, PartialEq, Eq)]
pub enum Format {
    /// Eight real samples a byte, one bit each: 0 is +1, 1 is -1.
    Real1,
    /// Four real samples a byte, two bits each, a sign s and a magnitude m: the value is
    /// (1 - 2s)(1 + 2m).
    Real2,
    /// Four complex samples a byte, two bits each: the sign of the part in phase, and that of the
    /// part in quadrature. Of each part 0 is +1, 1 is -1.
    Iq1,
    /// Two complex samples a byte, four bits each: sign and magnitude of the part in phase, then
    /// those of the part in quadrature. A part's value is that of a sample of `Real2`.
    Iq2,
}

impl Format {
    /// How many samples a byte holds: 8, 4 or 2.
    #[must_use]
    pub fn per_byte(self) -> usize {
        match self {
            Format::Real1 => 8,
            Format::Real2 => 4,
            Format::Iq1 => 4,
            Format::Iq2 => 2,
        }
    }

    /// How many bits a sample has: 1, 2 or 4.
    pub(crate) fn width(self) -> usize {
        match self {
            Format::Real1 => 1,
            Format::Real2 => 2,
            Format::Iq1 => 2,
            Format::Iq2 => 4,
        }
    }

    /// Whether a sample has a part in quadrature.
    #[must_use]
    pub fn has_quadrature(self) -> bool {
        match self {
            Format::Real1 => false,
            Format::Real2 => false,
            Format::Iq1 => true,
            Format::Iq2 => true,
        }
    }

    /// Whether a part of a sample has a magnitude beside its sign.
    #[must_use]
    pub fn has_sizes(self) -> bool {
        match self {
            Format::Real1 => false,
            Format::Real2 => true,
            Format::Iq1 => false,
            Format::Iq2 => true,
        }
    }

    /// The byte with its sample `place` made sample `n` of `bytes`. Its other samples are kept.
    ///
    /// # Panics
    ///
    /// Plain Rust panics where the byte has no such place, or the bytes no such sample.
    #[must_use]
    pub fn put(self, byte: u8, place: usize, bytes: &[u8], n: usize) -> u8 {
        assert!(
            place < self.per_byte(),
            "Format::put requires place < per_byte()"
        );
        // The bits in which the old sample and the new one differ are turned over.
        let differing = self.bits_of_sample(&[byte], place) ^ self.bits_of_sample(bytes, n);
        byte ^ (differing << self.last_bit(place))
    }

    /// The bits of sample `n` of `bytes`, as a number: the sample's first bit is the number's
    /// highest.
    pub(crate) fn bits_of_sample(self, bytes: &[u8], n: usize) -> u8 {
        let bits = bytes[n / self.per_byte()] >> self.last_bit(n);
        match self {
            Format::Real1 => bits & 1,
            Format::Real2 => bits & 3,
            Format::Iq1 => bits & 3,
            Format::Iq2 => bits & 15,
        }
    }

    /// Where in its byte the last bit of sample `n` of some bytes stands, counted from the lowest
    /// bit.
    fn last_bit(self, n: usize) -> usize {
        match self {
            Format::Real1 => 7 - n % 8,
            Format::Real2 => 6 - 2 * (n % 4),
            Format::Iq1 => 6 - 2 * (n % 4),
            Format::Iq2 => 4 - 4 * (n % 2),
        }
    }
}
