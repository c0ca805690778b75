//! The recording as a packer makes it.

use crate::files::Recording;
use crate::numbers::{self, CONJUGATE, Ending, PACKED, PAIRED, QUADRATURE, SWAPPED};
use seldomplough::internals::std::alloc::Global;
use seldomplough::internals::std::vec::Vec as Bytes;
use seldomplough::internals::receiver::{DeviceFault, Source};
use seldomplough::internals::recordings::{Choice, ChoiceFault, MOST_PIECE, PackFault, Packer, ValueKind};
use seldomplough::internals::sample_planes::Format;

/// Twice the greatest threshold or centre but for floats, as `pack` takes it.
pub const MOST_HALVES: f64 = 2_000_001.0;

/// What is asked of a recording, in numbers. The threshold and the centres are twice their values.
#[derive(Clone, Copy, Debug)]
pub struct Asked {
    /// The number of the packing.
    pub format: u32,
    /// The number of the kind of values.
    pub kind: u32,
    /// What holds of pairs.
    pub flags: u32,
    /// Twice the threshold of sizes.
    pub threshold2: f64,
    /// Twice the centre of the part in phase.
    pub centre2: f64,
    /// Twice the centre of the part in quadrature.
    pub centre_q2: f64,
}

impl Asked {
    /// What is asked, in the terms of `recordings`.
    pub fn choice(&self) -> Result<Choice, Ending> {
        let kind = numbers::kind(self.kind)?;
        let is_float = kind == ValueKind::F32;
        Ok(Choice {
            kind,
            format: numbers::format(self.format)?,
            threshold: if is_float {
                float(self.threshold2)?
            } else {
                count(self.threshold2)?
            },
            centre: if is_float { 0 } else { halves(self.centre2)? },
            centre_q: if is_float { 0 } else { halves(self.centre_q2)? },
            is_paired: self.flags & PAIRED != 0,
            is_swapped: self.flags & SWAPPED != 0,
            is_conjugate: self.flags & CONJUGATE != 0,
            takes_quadrature: self.flags & QUADRATURE != 0,
        })
    }
}

/// The threshold of floats: the bits of the float, of at least 0, of which this is twice the value.
fn float(twice: f64) -> Result<u32, Ending> {
    let float = (twice / 2.0) as f32;
    // A number below 0 may be too small for a float.
    if twice >= 0.0 && float.is_finite() {
        Ok(float.abs().to_bits())
    } else {
        Err(Ending::Number)
    }
}

/// Twice a threshold as an integer.
fn count(twice: f64) -> Result<u32, Ending> {
    u32::try_from(halves(twice)?).map_err(|_| Ending::Number)
}

/// Twice a number of halves as an integer.
fn halves(twice: f64) -> Result<i32, Ending> {
    let is_known = twice.trunc() == twice && twice.abs() <= MOST_HALVES;
    if is_known {
        Ok(twice as i32)
    } else {
        Err(Ending::Number)
    }
}

/// How many bytes of a recording have so many samples.
pub fn bytes_of(samples: f64, format: Format, kind: u32, flags: u32) -> Result<f64, Ending> {
    let bits = if kind == PACKED {
        8.0 / format.per_byte() as f64
    } else {
        let parts = if flags & PAIRED != 0 { 2 } else { 1 };
        (parts * numbers::kind(kind)?.bits()) as f64
    };
    let bytes = samples * bits / 8.0;
    if bytes >= 0.0 && bytes.trunc() == bytes {
        Ok(bytes)
    } else {
        Err(Ending::Number)
    }
}

/// A recording that is packed piece by piece, as the bank asks for it.
pub struct Packed {
    packer: Packer,
    raw: Vec<u8>,
    ready: Bytes<u8>,
    given: usize,
    fault: Option<PackFault>,
}

impl Packed {
    /// The recording, of which nothing is read yet.
    pub fn new(choice: &Choice) -> Result<Packed, Ending> {
        let recipe = choice.recipe().map_err(ending_of)?;
        let packer = Packer::new(Global, recipe).map_err(|_| Ending::NoMemory)?;
        let ready = Bytes::new(Global);
        Ok(Packed {
            packer,
            raw: vec![0; MOST_PIECE],
            ready,
            given: 0,
            fault: None,
        })
    }

    /// Why packing failed, where it did.
    pub fn fault(&self) -> Option<PackFault> {
        self.fault
    }

    /// How many samples fill no byte, and whether the last one isn't whole.
    pub fn left(&self) -> (u32, bool) {
        (self.packer.samples_held() as u32, self.packer.ends_inside())
    }
}

/// What can't be had of a recording.
pub fn ending_of(fault: ChoiceFault) -> Ending {
    match fault {
        ChoiceFault::Pairs => Ending::Pairs,
        ChoiceFault::Sizes => Ending::Sizes,
        ChoiceFault::Part => Ending::Part,
        _ => unreachable!("no other ChoiceFault is known"),
    }
}

impl Source for Packed {
    fn read(&mut self, buffer: &mut [u8]) -> Result<usize, DeviceFault> {
        while self.given == self.ready.len() {
            let count = Recording.read(&mut self.raw)?;
            if count == 0 {
                return Ok(0);
            }
            self.given = 0;
            self.packer
                .take(&self.raw[..count], &mut self.ready)
                .map_err(|fault| {
                    self.fault = Some(fault);
                    DeviceFault
                })?;
        }
        let count = buffer.len().min(self.ready.len() - self.given);
        buffer[..count].copy_from_slice(&self.ready[self.given..self.given + count]);
        self.given += count;
        Ok(count)
    }
}
