// Made by tools/rust of crates/packer/src/floats.rt: change that.
//! What a recording of floats is like, as text.

use crate::kit::std::println;
use crate::packer::failure::Failure;
use crate::packer::measuring::tell_shares;
use crate::recordings::{INFINITY, MOST_BYTES, Measure, PartRecipe, Recipe};
use crate::kit::std::io::{self, Print};
use crate::kit::std::num::{nearest_f64_to_f32_with_nan, nearest_usize_to_f64};

/// The floats of a part of a recording's samples.
#[derive(Clone, Copy, Debug, PartialEq)]
struct Floats {
    /// The mean of the floats.
    mean: f64,
    /// The mean of the floats' squares.
    square: f64,
}

/// Measures floats, and prints what was found and the threshold that it suggests: the root of the
/// mean of all squares.
pub fn measure_floats<P: Print>(rt: &P, recipe: &Recipe, bytes: &[u8]) -> Result<(), Failure> {
    let (i, q) = (about_zero(&recipe.in_phase), about_zero(&recipe.quadrature));
    let floats_i = Floats::measure(recipe, &i, bytes)?;
    let floats_q = Floats::measure(recipe, &q, bytes)?;
    // Where there is one part, both are that one.
    let threshold = root((floats_i.square + floats_q.square) / 2.0);
    let bits = u64::from(bits(threshold));
    let of_i = (&floats_i, recipe.measure(&i, bits, bytes));
    let of_q = (&floats_q, recipe.measure(&q, bits, bytes));
    if of_i.1.count == 0 {
        return Err(Failure::Nothing);
    }
    tell(rt, recipe.is_paired, of_i, of_q, threshold).map_err(|_| Failure::Output)
}

/// Prints what was found, and the threshold.
fn tell<P: Print>(
    rt: &P,
    is_paired: bool,
    i: (&Floats, Measure),
    q: (&Floats, Measure),
    threshold: f32,
) -> io::Result<()> {
    println!(rt; "samples {}", i.1.count)?;
    tell_part(rt, "", i.0, &i.1)?;
    if is_paired {
        tell_part(rt, "-q", q.0, &q.1)?;
    }
    println!(rt; "--threshold {threshold}")
}

/// Prints what was found of a part.
fn tell_part<P: Print>(rt: &P, name: &str, floats: &Floats, measure: &Measure) -> io::Result<()> {
    let mean = nearest_f64_to_f32_with_nan(floats.mean);
    let rms = root(floats.square);
    println!(rt; "mean{name} {mean}")?;
    println!(rt; "rms{name} {rms}")?;
    tell_shares(rt, name, measure)
}

/// A part whose values have the sign that they are read with.
fn about_zero(part: &PartRecipe) -> PartRecipe {
    PartRecipe {
        place: part.place,
        centre: 0,
        is_turned: false,
    }
}

/// The root of a number to the nearest float of 32 bits.
fn root(square: f64) -> f32 {
    nearest_f64_to_f32_with_nan(square.sqrt())
}

/// The bits of a float, or 0 where it is no number.
fn bits(float: f32) -> u32 {
    if float.is_nan() { 0 } else { float.to_bits() }
}

impl Floats {
    /// Measures a part of all samples of some bytes. It fails at a float that is no number, or
    /// infinite.
    fn measure(recipe: &Recipe, part: &PartRecipe, bytes: &[u8]) -> Result<Floats, Failure> {
        let (size, first) = (if recipe.is_paired { 8 } else { 4 }, 4 * part.place);
        let (mut sum, mut squares) = (0.0, 0.0);
        let count = bytes.len() / size;
        for n in 0..count {
            let at = size * n + first;
            let value = value([bytes[at], bytes[at + 1], bytes[at + 2], bytes[at + 3]])?;
            sum += value;
            squares += value * value;
        }
        let count = nearest_usize_to_f64(count);
        Ok(Floats {
            mean: sum / count,
            square: squares / count,
        })
    }
}

/// The float of four bytes, the low one first.
fn value(bytes: [u8; 4]) -> Result<f64, Failure> {
    let bits = u32::from_le_bytes(bytes);
    let size = bits % (1 << 31);
    if size < INFINITY {
        Ok(f64::from(f32::from_bits(bits)))
    } else if size == INFINITY {
        Err(Failure::Infinite)
    } else {
        Err(Failure::NotANumber)
    }
}
