// Made by tools/rust of crates/client_commands/src/refusal.rt: change that.
//! Why a line of a script is refused.

/// Why a line of a script is refused. The first case that applies is answered.
#[non_exhaustive]
#[derive(Clone, Copy, Debug, PartialEq, Eq)]
pub enum LineRefusal {
    /// The line is longer than 80 bytes.
    LineTooLong,
    /// A byte is outside 0x20 to 0x7e.
    NotPrintable,
    /// The first word isn't 1 to 13 digits with a value of at most 2^40.
    NoTime,
    /// The time is before that of the line before.
    TimeGoesBack,
    /// There is no verb, or an unknown one.
    NoVerb,
    /// There are more or fewer words than the verb takes.
    WrongWordCount,
    /// A word isn't a number: a `-` or none, and then 1 to 13 digits.
    NotANumber,
    /// A number is out of its range.
    OutOfRange,
}

impl LineRefusal {
    /// The number that is printed: 1 to 8.
    pub fn number(self) -> u8 {
        match self {
            LineRefusal::LineTooLong => 1,
            LineRefusal::NotPrintable => 2,
            LineRefusal::NoTime => 3,
            LineRefusal::TimeGoesBack => 4,
            LineRefusal::NoVerb => 5,
            LineRefusal::WrongWordCount => 6,
            LineRefusal::NotANumber => 7,
            LineRefusal::OutOfRange => 8,
        }
    }
}
