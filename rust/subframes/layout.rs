// Made by tools/rust of crates/subframes/src/layout.rt: change that.
//! Where a field stands in a subframe, and the number that it has there.

use crate::frame_sync::Subframe;

/// The bits of a word that are data; the parity follows them.
const DATA_WIDTH: usize = 24;

/// Bits first to last of a subframe, counted from 1, parity places included (IS-GPS-200, figure
/// 20-1).
#[derive(Clone, Copy)]
pub(crate) struct Bits {
    pub(crate) first: usize,
    pub(crate) last: usize,
}

/// A line of a table: the field's name, its one or two parts, the first one's bits being the
/// highest, whether it is in two's complement, and its scale factor's power of two.
#[derive(Clone, Copy)]
pub(crate) struct Layout {
    pub(crate) name: &'static str,
    pub(crate) head: Bits,
    pub(crate) tail: Option<Bits>,
    pub(crate) is_signed: bool,
    pub(crate) exponent: i8,
}

impl Bits {
    /// The number of bits.
    fn len(self) -> usize {
        self.last + 1 - self.first
    }

    /// The number, from 1, of the word that holds the bits.
    fn word(self) -> usize {
        (self.first - 1) / 30 + 1
    }

    /// Whether the word that holds the bits is present.
    fn is_there(self, subframe: &Subframe) -> bool {
        subframe.word(self.word()).is_some()
    }

    /// The number that the bits write, the first of them highest; 0 where their word is missing.
    pub(crate) fn number(self, subframe: &Subframe) -> u64 {
        let word = u64::from(subframe.word(self.word()).unwrap_or(0));
        let behind = DATA_WIDTH - 1 - (self.last - 1) % 30;
        (word >> behind) & ((1 << self.len()) - 1)
    }
}

impl Layout {
    /// Whether no word that holds a part is missing.
    pub(crate) fn is_there(&self, subframe: &Subframe) -> bool {
        let head = self.head.is_there(subframe);
        match self.tail {
            None => head,
            Some(tail) => head && tail.is_there(subframe),
        }
    }

    /// The number that the field has in a subframe, missing words read as 0.
    pub(crate) fn value(&self, subframe: &Subframe) -> i64 {
        let number = self.number(subframe);
        let len = self.len();
        if self.is_signed && number >> (len - 1) == 1 {
            number as i64 - (1 << len)
        } else {
            number as i64
        }
    }

    /// The number that the bits of the parts write, joined in their order.
    fn number(&self, subframe: &Subframe) -> u64 {
        let head = self.head.number(subframe);
        match self.tail {
            None => head,
            Some(tail) => (head << tail.len()) | tail.number(subframe),
        }
    }

    /// The number of bits of the field.
    fn len(&self) -> usize {
        match self.tail {
            None => self.head.len(),
            Some(tail) => self.head.len() + tail.len(),
        }
    }
}
