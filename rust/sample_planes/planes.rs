// Made by tools/rust of crates/sample_planes/src/planes.rt: change that.
//! A run of samples, unpacked.

use crate::sample_planes::format::Format;
use crate::sample_planes::layout::NEAR_BYTES;
use crate::sample_planes::part::Part;
use crate::sample_planes::parts::fill_parts;
use crate::bit_planes::WORDS;
use crate::kit::std::fmt::{self, Debug, Formatter};
use crate::kit::lanes::*;

/// The most samples that `Planes` hold.
pub const MAX_SAMPLES: usize = 1024;

/// The most samples of a recording, and so the latest time in it.
pub const MOST_TIME: u64 = 1 << 40;

/// A run of at most `MAX_SAMPLES` samples, unpacked. Clauses see it as the list of its samples.
pub struct Planes {
    in_phase: Part,
    /// Where the samples are real, it is left from an earlier run, and nothing is read of it.
    quadrature: Part,
    /// Whether the samples have a part in quadrature.
    is_complex: bool,
    /// Whether there can be a part of 3 in size.
    has_sizes: bool,
    len: usize,
}

impl Planes {
    /// The planes of no samples. They can be kept, and filled again and again.
    pub fn new() -> Planes {
        Planes {
            in_phase: Part::new(),
            quadrature: Part::new(),
            is_complex: false,
            has_sizes: false,
            len: 0,
        }
    }

    /// Makes them `len` samples of `bytes`, from sample `first` on, whatever they were before.
    pub fn fill(&mut self, format: Format, bytes: &[u8], first: usize, len: usize) {
        let per_byte = format.per_byte();
        let near = &bytes[first / per_byte..];
        if near.len() < NEAR_BYTES {
            self.fill_from_few(format, bytes, first, len);
        } else {
            self.fill_from_many(format, near, first % per_byte, len);
        }
    }

    /// Does what `fill` does, where so few bytes are left that reads of whole lanes would pass
    /// their end. They are copied. It stays a call, so that room for the copy is made only where it
    /// is needed.
    #[inline(never)]
    fn fill_from_few(&mut self, format: Format, bytes: &[u8], first: usize, len: usize) {
        let per_byte = format.per_byte();
        let start = first % per_byte;
        let many = (format.width() * (start + len) + 7) / 8;
        let near = near_bytes(bytes, first / per_byte, many);
        self.fill_from_many(format, &near, start, len);
    }

    /// Does what `fill` does, from a sample of the first byte on, where there are many bytes.
    fn fill_from_many(&mut self, format: Format, near: &[u8], start: usize, len: usize) {
        fill_parts(
            &mut self.in_phase,
            &mut self.quadrature,
            format,
            near,
            start,
            len,
        );
        self.is_complex = format.has_quadrature();
        self.has_sizes = format.has_sizes();
        self.len = len;
    }

    /// How many samples there are: 0 to `MAX_SAMPLES`.
    pub fn len(&self) -> usize {
        self.len
    }

    /// The part in phase of sample `i`, counted from 0: 1 or -1, and of two bits also 3 or -3.
    pub fn value(&self, i: usize) -> i8 {
        assert!(i < self.len(), "Planes::value requires i < len()");
        self.in_phase.value(i)
    }

    /// The part in quadrature of sample `i`, counted from 0: as `value`, and 0 where the samples
    /// are real.
    pub fn value_q(&self, i: usize) -> i8 {
        assert!(i < self.len(), "Planes::value_q requires i < len()");
        if self.is_complex {
            self.quadrature.value(i)
        } else {
            0
        }
    }

    /// Whether the samples have a part in quadrature.
    pub fn is_complex(&self) -> bool {
        self.is_complex
    }

    /// Whether a part can be 3 in size.
    pub fn has_sizes(&self) -> bool {
        self.has_sizes
    }

    /// Codes of the parts in phase of the 64 samples from sample `64 * w` on: 4 for a part below 0,
    /// and 8 more for one that is 3 in size. Lane k stands for sample `64 * w + 63 - k`.
    #[inline(always)]
    pub fn codes(&self, w: usize) -> u8x64 {
        assert!(w < WORDS, "Planes::codes requires w < WORDS");
        self.in_phase.codes(w)
    }

    /// Codes of the parts in quadrature, laid out as `codes` has those in phase, or None where the
    /// samples are real.
    #[inline(always)]
    pub fn codes_q(&self, w: usize) -> Option<[u8; 64]> {
        assert!(w < WORDS, "Planes::codes_q requires w < WORDS");
        if self.is_complex {
            Some(self.quadrature.codes(w).to_array())
        } else {
            None
        }
    }
}

impl Debug for Planes {
    /// How many samples they have.
    fn fmt(&self, f: &mut Formatter) -> fmt::Result {
        write!(f, "Planes {{ len: {}, .. }}", self.len())
    }
}

/// Unpacks `len` samples of `bytes`, from sample `first` on.
pub fn unpack(format: Format, bytes: &[u8], first: usize, len: usize) -> Planes {
    let mut planes = Planes::new();
    planes.fill(format, bytes, first, len);
    planes
}

/// `many` bytes, those of a slice from byte `from` on, and zeros after them.
fn near_bytes(bytes: &[u8], from: usize, many: usize) -> [u8; NEAR_BYTES] {
    assert!(
        many <= bytes.len() && from <= bytes.len() - many,
        "near_bytes requires from + many <= bytes.len()"
    );
    assert!(many <= NEAR_BYTES, "near_bytes requires many <= NEAR_BYTES");
    let mut near = [0; NEAR_BYTES];
    for k in 0..many {
        near[k] = bytes[from + k];
    }
    near
}
