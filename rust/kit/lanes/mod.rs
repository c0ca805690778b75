//! Several numbers at once, as far as the sources use them: a stand-in for `std::simd`, which isn't
//! in the stable std. Operations are loops over arrays, or the instructions of a processor, which
//! has a file of its own then. Beside `start` of the programs, the files of processors, `vectors` and
//! `places` alone have `unsafe` in the whole workspace.

#[cfg(all(target_arch = "aarch64", target_feature = "neon"))]
mod aarch64;
#[cfg(test)]
mod against_loops;
// A processor has some of them as instructions.
#[allow(dead_code)]
mod loops;
mod places;
mod processor;
#[cfg(test)]
mod tests;
#[cfg(any(
    target_arch = "x86_64",
    all(target_arch = "aarch64", target_feature = "neon"),
    all(target_arch = "wasm32", target_feature = "simd128")
))]
mod vectors;
#[cfg(all(target_arch = "wasm32", target_feature = "simd128"))]
mod wasm32;
#[cfg(target_arch = "x86_64")]
mod x86_64;

use core::array::from_fn;
use core::ops::{Add, BitAnd, BitXor, Shr, Sub};

/// `P` times sixteen lanes of a number, where `P` is 1, 2 or 4.
#[derive(Clone, Copy, Debug)]
pub struct Lanes<T, const P: usize>([[T; 16]; P]);

#[allow(non_camel_case_types)]
pub type u8x16 = Lanes<u8, 1>;

#[allow(non_camel_case_types)]
pub type u8x32 = Lanes<u8, 2>;

#[allow(non_camel_case_types)]
pub type u8x64 = Lanes<u8, 4>;

#[allow(non_camel_case_types)]
pub type u32x16 = Lanes<u32, 1>;

#[allow(non_camel_case_types)]
pub type u16x64 = Lanes<u16, 4>;

#[allow(non_camel_case_types)]
pub type i16x64 = Lanes<i16, 4>;

/// Yes (255) or no (0) for each of `P` times sixteen lanes.
#[derive(Clone, Copy, Debug)]
pub struct Choice<const P: usize>([[u8; 16]; P]);

/// What each sixteen lanes give. They are written out, since rustc leaves a loop over them as it
/// is: until it makes vectors of them, its turns look too long.
#[inline(always)]
fn parts<T: Copy, const P: usize>(part: impl Fn(usize) -> T) -> [T; P] {
    const { assert!(P == 1 || P == 2 || P == 4) };
    let mut all = [part(0); P];
    if P > 1 {
        all[1] = part(1);
    }
    if P > 2 {
        all[2] = part(2);
        all[3] = part(3);
    }
    all
}

/// The first values of a slice. Panics where it has too few.
#[inline(always)]
fn first<T: Copy, const N: usize>(values: &[T]) -> [T; N] {
    *values.first_chunk().expect("enough values")
}

impl<T: Copy, const P: usize> Lanes<T, P> {
    /// The same value in each lane.
    #[inline(always)]
    pub fn splat(value: T) -> Self {
        Lanes([[value; 16]; P])
    }

    #[inline(always)]
    pub fn from_array<const N: usize>(values: [T; N]) -> Self {
        const { assert!(N == 16 * P) };
        Self::from_slice(&values)
    }

    /// The first values of a slice. Panics where it has too few.
    #[inline(always)]
    pub fn from_slice(values: &[T]) -> Self {
        let values = &values[..16 * P];
        Lanes(parts(|p| first(&values[16 * p..])))
    }

    /// The values of a slice from a place on, by one comparison: what `from_slice` gives of the
    /// slice from there on. Panics where it has too few.
    #[inline(always)]
    pub fn from_slice_at(values: &[T], at: usize) -> Self {
        Lanes(places::values_at(values, at))
    }

    /// Writes the lanes to the beginning of a slice. Panics where it is too short.
    #[inline(always)]
    pub fn copy_to_slice(self, values: &mut [T]) {
        values[..16 * P].copy_from_slice(self.0.as_flattened());
    }

    /// Each lane as by `as`.
    #[inline(always)]
    pub fn cast<U: As<T>>(self) -> Lanes<U, P> {
        Lanes(U::of(self.0))
    }

    /// The lanes at these positions, where those of `second` are counted on from the end of `self`.
    /// The positions are in order from 0 on; `std::simd` takes others too, and no source of this
    /// workspace has any.
    #[inline(always)]
    pub fn shuffle<const N: usize, const Q: usize>(
        self,
        second: Self,
        positions: [usize; N],
    ) -> Lanes<T, Q> {
        const { assert!(N == 16 * Q && Q == 2 * P) };
        debug_assert!(positions.iter().enumerate().all(|(k, &at)| at == k));
        Lanes(parts(|p| if p < P { self.0[p] } else { second.0[p - P] }))
    }
}

impl<T: Copy> Lanes<T, 1> {
    #[inline(always)]
    pub fn to_array(self) -> [T; 16] {
        self.0[0]
    }
}

impl<T: Copy> Lanes<T, 4> {
    #[inline(always)]
    pub fn to_array(self) -> [T; 64] {
        first(self.0.as_flattened())
    }

    /// `LEN` lanes from lane `START` on. They are 32, and begin with a sixteen; `std::simd` takes
    /// others too, and no source of this workspace has any.
    #[inline(always)]
    pub fn extract<const START: usize, const LEN: usize>(self) -> Lanes<T, 2> {
        const { assert!(LEN == 32 && START % 16 == 0) };
        Lanes(parts(|p| self.0[START / 16 + p]))
    }
}

/// Lanes of 16 bits are put in another order by loops.
macro_rules! swizzles {
    ($($lanes:ty)*) => {
        $(impl $lanes {
            /// The lanes at these positions.
            #[inline(always)]
            #[must_use]
            pub fn swizzle(self, positions: [usize; 64]) -> Self {
                let all = self.0.as_flattened();
                let mut out = self.0;
                for p in 0..4 {
                    for k in 0..16 {
                        out[p][k] = all[positions[16 * p + k]];
                    }
                }
                Lanes(out)
            }
        })*
    };
}

swizzles! { i16x64 u16x64 }

impl u8x64 {
    /// The lanes at these positions, which are eight neighbours each, from a multiple of eight on.
    /// `std::simd` takes others too, and no source of this workspace has any.
    #[inline(always)]
    #[must_use]
    pub fn swizzle(self, positions: [usize; 64]) -> Self {
        debug_assert!((0..64).all(|k| positions[k] == positions[k / 8 * 8] / 8 * 8 + k % 8));
        Lanes(processor::eights(self.0, positions))
    }

    /// Sixteen bytes of a table from each of four places on. Panics where one has too few.
    /// `std::simd` has no such function: the sources put four vectors side by side, and each of
    /// them would be checked by itself.
    #[inline(always)]
    #[must_use]
    pub fn from_places(table: &[u8], places: [usize; 4]) -> u8x64 {
        Lanes(places::windows(table, places))
    }
}

impl<const P: usize> Choice<P> {
    /// The lane of `yes` where the choice is yes, and else that of `no`.
    #[inline(always)]
    #[must_use]
    pub fn select(self, yes: Lanes<u8, P>, no: Lanes<u8, P>) -> Lanes<u8, P> {
        let differing = processor::xor(yes.0, no.0);
        Lanes(processor::xor(no.0, processor::and(self.0, differing)))
    }

    /// Bit k is 1 where lane k is yes.
    #[inline(always)]
    #[must_use]
    pub fn to_bitmask(self) -> u64 {
        processor::top_bits(self.0)
    }
}

/// Yes or no for each of `P` times sixteen lanes of 16 bits.
#[derive(Clone, Copy, Debug)]
pub struct WideChoice<const P: usize>(processor::Mask<P>);

impl<const P: usize> WideChoice<P> {
    /// The lane of `yes` where the choice is yes, and else that of `no`.
    #[inline(always)]
    #[must_use]
    pub fn select(self, yes: Lanes<u16, P>, no: Lanes<u16, P>) -> Lanes<u16, P> {
        Lanes(processor::chosen(self.0, yes.0, no.0))
    }
}

impl<const P: usize> Lanes<i16, P> {
    #[inline(always)]
    #[must_use]
    pub fn simd_gt(self, other: Self) -> WideChoice<P> {
        WideChoice(processor::greater(self.0, other.0))
    }
}

impl<const P: usize> Lanes<u8, P> {
    #[inline(always)]
    #[must_use]
    pub fn simd_ne(self, other: Self) -> Choice<P> {
        Choice(processor::xor(processor::equal(self.0, other.0), [[255; 16]; P]))
    }

    /// Each sixteen lanes by themselves: lane k of them is the lane of theirs in `self` that lane k
    /// of `numbers` names. `K` is 16, and the numbers are below it; `std::simd` takes others too,
    /// and no source of this workspace has any.
    #[inline(always)]
    #[must_use]
    pub fn swizzle_dyn_within<const K: usize>(self, numbers: Self) -> Self {
        const { assert!(K == 16) };
        debug_assert!(numbers.0.iter().flatten().all(|&number| number < 16));
        Lanes(processor::look_up(self.0, numbers.0))
    }
}

impl<const P: usize> Lanes<u16, P> {
    /// The sum of all lanes, which wraps.
    #[inline(always)]
    #[must_use]
    pub fn reduce_sum(self) -> u16 {
        processor::sum_of_all(self.0)
    }
}

/// A type that values of another become by `as`.
pub trait As<T>: Copy {
    fn of<const P: usize>(lanes: [[T; 16]; P]) -> [[Self; 16]; P];
}

impl As<u8> for u16 {
    #[inline(always)]
    fn of<const P: usize>(lanes: [[u8; 16]; P]) -> [[u16; 16]; P] {
        parts(|p| processor::widened(lanes[p]))
    }
}

impl As<u16> for i16 {
    #[inline(always)]
    fn of<const P: usize>(lanes: [[u16; 16]; P]) -> [[i16; 16]; P] {
        processor::signed(lanes)
    }
}

impl As<u16> for u8 {
    #[inline(always)]
    fn of<const P: usize>(lanes: [[u16; 16]; P]) -> [[u8; 16]; P] {
        processor::narrowed(lanes)
    }
}

/// Operators on lanes. Sums and differences wrap. Each lane is shifted by as many places as the
/// other's, fewer than it has: bytes by any, and lanes of 16 bits all by the same. `std::simd`
/// shifts these by any too, and no source of this workspace does.
macro_rules! operators {
    ($($of:ident $name:ident $lane:ty: $by:ident;)*) => {
        $(
            impl<const P: usize> $of for Lanes<$lane, P> {
                type Output = Self;

                #[inline(always)]
                fn $name(self, other: Self) -> Self {
                    Lanes(processor::$by(self.0, other.0))
                }
            }
        )*
    };
}

operators! {
    Add add u8: sum;
    Sub sub u8: difference;
    BitAnd bitand u8: and;
    BitXor bitxor u8: xor;
    Add add u16: sum_of_words;
    Sub sub i16: difference_of_words;
    Add add u32: sum_of_double_words;
    Shr shr u8: shifted_bytes;
    Shr shr u16: shifted;
}
