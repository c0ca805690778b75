// Made by tools/rust of crates/made_signals/src/stream.rt: change that.
//! A signal as a stream of values, or of packed bytes.

use crate::made_signals::chip_signs::ChipSigns;
use crate::made_signals::noise::Noise;
use crate::made_signals::signal::MadeSignal;

/// The samples of a signal from number 0 on, up to an end. In some stretches there may be noise in
/// place of the signal, which goes on after them as if it had been there.
#[derive(Clone, Copy)]
pub struct SampleStream<'a> {
    signal: MadeSignal<'a>,
    signs: ChipSigns,
    noise: Noise,
    noisy: &'a [(u64, u64)],
    number: u64,
    end: u64,
}

impl<'a> SampleStream<'a> {
    /// The first `samples` samples of a signal.
    pub fn new(signal: MadeSignal<'a>, samples: u64) -> Self {
        SampleStream::with_noise(signal, samples, &[])
    }

    /// The first `samples` samples of a signal, with noise from the first number of each pair up to
    /// the one before the second.
    pub fn with_noise(signal: MadeSignal<'a>, samples: u64, noisy: &'a [(u64, u64)]) -> Self {
        SampleStream {
            signal,
            signs: ChipSigns::of(signal.satellite),
            noise: Noise::new(),
            noisy,
            number: 0,
            end: samples,
        }
    }

    /// The value of the next sample, 1, 3, -1 or -3, or nothing at the end.
    pub fn next_value(&mut self) -> Option<i32> {
        if self.end <= self.number {
            return None;
        }
        let number = self.number;
        self.number = number.wrapping_add(1);
        let is_noisy = self
            .noisy
            .iter()
            .any(|(from, to)| *from <= number && number < *to);
        Some(if is_noisy {
            self.noise.next_value()
        } else {
            self.signal.value(&self.signs, number)
        })
    }

    /// Fills a buffer from its front on with bytes of four samples each, the earliest in the top
    /// bits, and answers how many bytes: fewer than its length only at the end. Samples at the end
    /// that fill no byte are left out.
    pub fn fill(&mut self, buffer: &mut [u8]) -> usize {
        let bytes = self.end.saturating_sub(self.number) / 4;
        let count = match usize::try_from(bytes) {
            Ok(bytes) => bytes.min(buffer.len()),
            Err(_) => buffer.len(),
        };
        for byte in buffer[..count].iter_mut() {
            *byte = self.next_byte();
        }
        count
    }

    /// The next four samples, packed.
    fn next_byte(&mut self) -> u8 {
        let mut byte = 0u8;
        for _ in 0..4 {
            byte = byte.wrapping_mul(4) | sign_and_magnitude(self.next_value());
        }
        byte
    }
}

/// The sign and the magnitude bit of a value.
fn sign_and_magnitude(value: Option<i32>) -> u8 {
    match value {
        Some(3) => 1,
        Some(-1) => 2,
        Some(-3) => 3,
        _ => 0,
    }
}
