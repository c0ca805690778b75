// Made by tools/rust of crates/oscillators/src/code.rt: change that.
//! The oscillator at the rate of the code.

use crate::oscillators::code_strides::{CodeStrides, HALF_CHIP};
use crate::oscillators::code_words::CodeWords;
use crate::oscillators::half_chip::HalfChip;
use crate::bit_planes::{PLACES, Plane};
use crate::ca_codes::{CODE_CHIPS, CodeBook, Prn};

/// The code's cycle of 1,023 chips (IS-GPS-200, section 3.3.2.3), in 2^-32 chip.
pub const CODE_CYCLE: u64 = (CODE_CHIPS as u64) << 32;

/// An oscillator at the code's rate. Its phase is in 2^-32 chip, from 0 to below the cycle of
/// 1,023 * 2^32 (IS-GPS-200, section 3.3.2.3: the code has 1,023 chips); its step is what a sample
/// adds to it. The fixed-point form is this project's own.
#[derive(Debug)]
pub struct CodeOsc {
    phase: u64,
    step: u32,
    strides: CodeStrides,
}

impl CodeOsc {
    /// An oscillator at the beginning of a half chip.
    #[inline(never)]
    pub fn new(start: HalfChip, step: u32) -> CodeOsc {
        CodeOsc {
            phase: start.get() as u64 * HALF_CHIP as u64,
            step,
            strides: CodeStrides::new(step),
        }
    }

    /// The phase at this sample, in 2^-32 chip: 0 to below 1,023 * 2^32.
    pub fn phase(&self) -> u64 {
        self.phase
    }

    /// Takes another step from here on. It stays a call: it is long, and not done often.
    #[inline(never)]
    pub fn set_step(&mut self, step: u32) {
        self.step = step;
        self.strides = CodeStrides::new(step);
    }

    /// The least number of samples, at least 1, that brings the phase to the end of the cycle or
    /// past it. The step isn't 0.
    pub fn to_wrap(&self) -> u64 {
        (CODE_CYCLE - self.phase).div_ceil(self.step as u64)
    }

    /// Goes on by `n` samples, at most `to_wrap()`. The step isn't 0. At the end of the cycle the
    /// code begins again.
    pub fn advance(&mut self, n: u64)

        // So n is at most `to_wrap()`.

    {
        self.phase = in_cycle(self.phase + n * self.step as u64);
    }

    /// Goes on by any number of samples, through as many cycles as they take.
    pub fn jump(&mut self, n: u64) {
        let phase = self.phase as u128 + n as u128 * self.step as u128;
        self.phase = (phase % CODE_CYCLE as u128) as u64;
    }

    /// The code in words of 64 samples, from `before` samples ago on, at most 1,023, if it has had
    /// this step since.
    pub fn words(&self, before: u32) -> CodeWords<'_> {
        let phase = in_cycle(self.phase + (CODE_CYCLE - before as u64 * self.step as u64));
        CodeWords::new(phase, self.step, &self.strides)
    }

    /// The signs of a satellite's chips at this sample and the `n` - 1 that follow: at the phase
    /// (prompt), half a chip ahead of it (early) and half a chip behind it (late); `n` is at most
    /// 1,024. The code goes round as often as the samples take it round. The oscillator stays where
    /// it is, and the book stands for the codes as before.
    pub fn planes(&self, n: usize, book: &mut CodeBook, prn: Prn) -> CodePlanes {
        assert!(n <= PLACES, "CodeOsc::planes requires n <= PLACES");
        let table = book.table(prn);
        let mut words = self.words(0);
        let mut early = Plane::new();
        let mut prompt = Plane::new();
        let mut late = Plane::new();
        for w in 0..(n + 63) / 64 {
            let word = words.next_chips(table);
            early.set_word(w, word.early);
            prompt.set_word(w, word.prompt);
            late.set_word(w, word.late);
        }
        CodePlanes {
            early,
            prompt,
            late,
            len: n,
        }
    }
}

/// The phase of a code, in 2^-32 chip, that is left of one below two cycles, without a division.
#[inline(always)]
pub fn in_cycle(phase: u64) -> u64 {
    if phase < CODE_CYCLE {
        phase
    } else {
        phase - CODE_CYCLE
    }
}

/// The signs of a code's chips, +1 for 0 and -1 for 1, at a run of at most 1,024 samples: half a
/// chip ahead (early), in time (prompt) and half a chip behind (late).
pub struct CodePlanes {
    early: Plane,
    prompt: Plane,
    late: Plane,
    len: usize,
}

impl CodePlanes {
    /// How many samples there are: 0 to 1,024.
    pub fn len(&self) -> usize {
        self.len
    }

    /// The sign of the early chip, half a chip ahead, at sample `i`, counted from 0: 1 or -1.
    pub fn early(&self, i: usize) -> i8 {
        sign(self.early.bit(i))
    }

    /// The sign of the chip at sample `i`, counted from 0: 1 or -1.
    pub fn prompt(&self, i: usize) -> i8 {
        sign(self.prompt.bit(i))
    }

    /// The sign of the late chip, half a chip behind, at sample `i`, counted from 0: 1 or -1.
    pub fn late(&self, i: usize) -> i8 {
        sign(self.late.bit(i))
    }
}

/// The sign of a chip: +1 for 0, -1 for 1.
fn sign(chip: u64) -> i8 {
    if chip == 0 { 1 } else { -1 }
}
