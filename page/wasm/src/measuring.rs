//! The centres and the threshold that `pack --measure` suggests for a recording.

use crate::border::Given;
use crate::files::Recording;
use crate::numbers::{self, Ending, PAIRED, SWAPPED};
use crate::packing::{MOST_HALVES, ending_of};
use seldomplough::internals::receiver::Source;
use seldomplough::internals::recordings::{Choice, MOST_BYTES, Measure, PartRecipe, Recipe, ValueKind};
use seldomplough::internals::sample_planes::Format;

const FLOAT_BYTES: usize = size_of::<f32>();

/// Measures the beginning of a recording, at most 1,048,576 bytes. The flags but for `PAIRED` and
/// `SWAPPED` change nothing.
pub fn measure(kind: u32, flags: u32) -> Result<Given, Ending> {
    let (kind, is_paired) = (numbers::kind(kind)?, flags & PAIRED != 0);
    let choice = Choice {
        kind,
        format: if is_paired {
            Format::Iq1
        } else {
            Format::Real1
        },
        threshold: 0,
        centre: 0,
        centre_q: 0,
        is_paired,
        is_swapped: flags & SWAPPED != 0,
        is_conjugate: false,
        takes_quadrature: false,
    };
    let recipe = choice.recipe().map_err(ending_of)?;
    let bytes = beginning()?;
    if kind == ValueKind::F32 {
        of_floats(&recipe, &bytes)
    } else {
        of_integers(&recipe, &bytes)
    }
}

/// The first bytes of the recording, at most `MOST_BYTES`.
fn beginning() -> Result<Vec<u8>, Ending> {
    let mut bytes = vec![0; MOST_BYTES];
    let mut len = 0;
    while len < MOST_BYTES {
        match Recording
            .read(&mut bytes[len..])
            .map_err(|_| Ending::Read)?
        {
            0 => break,
            count => len += count,
        }
    }
    bytes.truncate(len);
    Ok(bytes)
}

/// The centres are the means to the nearest half, and the threshold the root of the mean square.
fn of_integers(recipe: &Recipe, bytes: &[u8]) -> Result<Given, Ending> {
    let [i, q] = [recipe.in_phase, recipe.quadrature].map(|part| centred(recipe, part, bytes));
    let [of_i, of_q] = [&i, &q].map(|part| recipe.measure(part, 0, bytes));
    if of_i.count == 0 {
        return Err(Ending::Nothing);
    }
    let threshold = ((of_i.squares + of_q.squares) / (of_i.count + of_q.count)).isqrt();
    Ok(Given {
        samples: of_i.count,
        centre2: i.centre as f64,
        centre_q2: q.centre as f64,
        threshold2: (threshold as f64).min(MOST_HALVES),
        ..Given::NONE
    })
}

/// A part about the mean of its values. Readings and centres are twice the values.
fn centred(recipe: &Recipe, part: PartRecipe, bytes: &[u8]) -> PartRecipe {
    let Measure { sum, count, .. } = recipe.measure(&part, 0, bytes);
    let (count, most) = (count as i64, MOST_HALVES as i64);
    let centre = (sum + count / 2).div_euclid(count.max(1));
    PartRecipe {
        centre: centre.clamp(-most, most),
        ..part
    }
}

/// Floats have the centre 0, and the threshold is the root of the mean of all squares.
fn of_floats(recipe: &Recipe, bytes: &[u8]) -> Result<Given, Ending> {
    let of_i = mean_square(recipe, &recipe.in_phase, bytes)?;
    let of_q = mean_square(recipe, &recipe.quadrature, bytes)?;
    let samples = (8 * bytes.len() / recipe.sample_bits()) as u64;
    if samples == 0 {
        return Err(Ending::Nothing);
    }
    let threshold = f64::midpoint(of_i, of_q).sqrt() as f32;
    Ok(Given {
        samples,
        threshold2: 2.0 * f64::from(threshold),
        ..Given::NONE
    })
}

/// The mean square of a part's floats.
fn mean_square(recipe: &Recipe, part: &PartRecipe, bytes: &[u8]) -> Result<f64, Ending> {
    let samples = bytes.chunks_exact(recipe.sample_bits() / 8);
    let (mut squares, count) = (0.0, samples.len());
    for sample in samples {
        let at = FLOAT_BYTES * part.place;
        let value = f32::from_le_bytes(std::array::from_fn(|k| sample[at + k]));
        if !value.is_finite() {
            return Err(if value.is_nan() {
                Ending::NotANumber
            } else {
                Ending::Infinite
            });
        }
        squares += f64::from(value) * f64::from(value);
    }
    Ok(squares / count as f64)
}
