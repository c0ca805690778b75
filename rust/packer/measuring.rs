// Made by tools/rust of crates/packer/src/measuring.rt: change that.
//! What a recording is like, as text.

use crate::kit::std::println;
use crate::kit::std::vec::Vec;
use crate::packer::decimals::{Halves, Hundredths};
use crate::packer::failure::Failure;
use crate::packer::floats::measure_floats;
use crate::packer::halves::MOST_HALVES;
use crate::packer::running::{read, zeros};
use crate::devices::Source;
use crate::recordings::{MOST_BYTES, MOST_PIECE, Measure, PartRecipe, Recipe, Stretch, ValueKind};
use crate::kit::std::alloc::{AllocGlobal, Global};
use crate::kit::std::io::{self, Print};

/// Measures the stretch of a recording that is wanted, at most its first `MOST_BYTES`, and prints
/// what was found and the options that it suggests.
pub fn measure<T: AllocGlobal + Print, R: Source>(
    rt: &T,
    recipe: &Recipe,
    stretch: &mut Stretch,
    reader: &mut R,
) -> Result<(), Failure> {
    let bytes = gather(rt.alloc(), stretch, reader)?;
    match recipe.kind {
        ValueKind::F32 => measure_floats(rt, recipe, &bytes),
        _ => measure_numbers(rt, recipe, &bytes),
    }
}

/// Measures numbers that are no floats, and prints what was found and the options that it suggests.
fn measure_numbers<P: Print>(rt: &P, recipe: &Recipe, bytes: &[u8]) -> Result<(), Failure> {
    let i = centred(recipe, &recipe.in_phase, bytes);
    let q = centred(recipe, &recipe.quadrature, bytes);
    // Where there is one part, both are that one.
    let threshold = mean_square(recipe, &i, &q, bytes)
        .isqrt()
        .min(u64::from(MOST_HALVES));
    let of_i = recipe.measure(&i, threshold, bytes);
    let of_q = recipe.measure(&q, threshold, bytes);
    if of_i.count == 0 {
        return Err(Failure::Nothing);
    }
    tell(rt, recipe, (&i, &of_i), (&q, &of_q), threshold).map_err(|_| Failure::Output)
}

/// Prints what was found, and the options.
fn tell<P: Print>(
    rt: &P,
    recipe: &Recipe,
    i: (&PartRecipe, &Measure),
    q: (&PartRecipe, &Measure),
    threshold: u64,
) -> io::Result<()> {
    println!(rt; "samples {}", i.1.count)?;
    tell_part(rt, recipe.kind, "", i.0, i.1)?;
    if recipe.is_paired {
        tell_part(rt, recipe.kind, "-q", q.0, q.1)?;
    }
    println!(rt; "--threshold {}", Halves(signed(threshold)))
}

/// Prints what was found of a part. That values of few bits stand at the ends of their range says
/// nothing of a radio that clips.
fn tell_part<P: Print>(
    rt: &P,
    kind: ValueKind,
    name: &str,
    part: &PartRecipe,
    measure: &Measure,
) -> io::Result<()> {
    let count = measure.count;
    println!(rt;
        "mean{name} {}",
        Hundredths(nearest(measure.sum.saturating_mul(50), count))
    )?;
    println!(rt; "rms{name} {}", rms(measure))?;
    if kind.bits() >= 8 {
        println!(rt; "at-the-ends{name} {}%", share(measure.at_ends, count))?;
    }
    tell_shares(rt, name, measure)?;
    println!(rt; "--centre{name} {}", Halves(part.centre))
}

/// Prints the shares of 1, 3, -1 and -3.
pub fn tell_shares<P: Print>(rt: &P, name: &str, measure: &Measure) -> io::Result<()> {
    let count = measure.count;
    let [plus, far_plus, minus, far_minus] = measure.shares;
    println!(rt;
        "shares{name} {}% {}% {}% {}%",
        share(plus, count),
        share(far_plus, count),
        share(minus, count),
        share(far_minus, count)
    )
}

/// The part about the centre of its values, which is their mean to the nearest half.
fn centred(recipe: &Recipe, part: &PartRecipe, bytes: &[u8]) -> PartRecipe {
    let measure = recipe.measure(part, 0, bytes);
    let most = i64::from(MOST_HALVES);
    PartRecipe {
        place: part.place,
        centre: nearest(measure.sum, measure.count).clamp(-most, most),
        is_turned: false,
    }
}

/// The mean of the squares of the distances from the centres of both parts, rounded down.
fn mean_square(recipe: &Recipe, i: &PartRecipe, q: &PartRecipe, bytes: &[u8]) -> u64 {
    let (of_i, of_q) = (recipe.measure(i, 0, bytes), recipe.measure(q, 0, bytes));
    let count = of_i.count.saturating_add(of_q.count);
    of_i.squares.saturating_add(of_q.squares) / count.max(1)
}

/// A quotient to the nearest number.
fn nearest(sum: i64, count: u64) -> i64 {
    sum.saturating_add(signed(count / 2))
        .div_euclid(signed(count).max(1))
}

/// A number as one with a sign. None here is too great.
fn signed(number: u64) -> i64 {
    i64::try_from(number).unwrap_or(i64::MAX)
}

/// The root of the mean square in hundredths of a value: squares are of twice the values.
fn rms(measure: &Measure) -> Hundredths {
    let count = measure.count.max(1);
    let whole = (measure.squares / count).saturating_mul(2500);
    let rest = (measure.squares % count).saturating_mul(2500) / count;
    Hundredths(signed(whole.saturating_add(rest).isqrt()))
}

/// A share in hundredths of a percent.
fn share(part: u64, count: u64) -> Hundredths {
    Hundredths(signed(part.saturating_mul(10_000) / count.max(1)))
}

/// The bytes of the stretch that is wanted, at most its first `MOST_BYTES`.
fn gather<R: Source>(
    alloc: Global,
    stretch: &mut Stretch,
    reader: &mut R,
) -> Result<Vec<u8>, Failure> {
    let mut buffer = zeros(alloc, MOST_PIECE)?;
    let mut bytes = Vec::new(alloc);
    while !stretch.is_over() && bytes.len() < MOST_BYTES {
        let count = read(reader, &mut buffer)?;
        if count == 0 {
            break;
        }
        let part = stretch.part(&buffer[..count]);
        let room = part.len().min(MOST_BYTES - bytes.len());
        bytes.extend_from_slice(&part[..room])?;
    }
    Ok(bytes)
}
