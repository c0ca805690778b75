// Made by tools/rust of crates/subframes/src/message.rt: change that.
//! The special message, in subframe 4 (IS-GPS-200, section 20.3.3.5.1.8).

use crate::subframes::layout::Bits;
use crate::frame_sync::Subframe;

/// The characters of a special message (IS-GPS-200, section 20.3.3.5.1.8).
pub const CHARACTERS_OF_MESSAGE: usize = 22;

/// The bits of a character.
const WIDTH: usize = 8;

/// The characters of a subframe that have these first bits.
macro_rules! characters_at {
    ($subframe:ident; $($first:literal),*) => { [$(character($subframe, $first)),*] };
}

/// The characters of a message as they are sent, missing words read as 0: two in word 3, three in
/// each of words 4 to 9, two in word 10.
pub(crate) fn characters(subframe: &Subframe) -> [u8; CHARACTERS_OF_MESSAGE] {
    characters_at!(subframe;
        69, 77, 91, 99, 107, 121, 129, 137, 151, 159, 167, 181, 189, 197, 211, 219, 227, 241, 249,
        257, 271, 279
    )
}

/// The character whose first bit is `first`.
fn character(subframe: &Subframe, first: usize) -> u8 {
    let bits = Bits {
        first,
        last: first + (WIDTH - 1),
    };
    bits.number(subframe) as u8
}
