//! Why a call is refused.
use std::{error, fmt};

/// Why a call is refused. A refused call has altered nothing.
///
/// Which refusals a call gives, and exactly when, is said in include/thawtrundle.h. Where several apply, it is the one with the
/// smallest number.
#[derive(Clone, Copy, Debug, PartialEq, Eq, Hash)]
pub enum Refusal {
    /// 1: columns that belong together differ in length.
    Uneven,
    /// 2: a line, a context or a rule list is longer than its limit.
    TooLong,
    /// 3: a number that is no type, category, action or component number, or font codes that do not rise strictly.
    OutOfRange,
    /// 4: a place or a range that is not in the line.
    Place,
    /// 5: a lookup offset or count above 65,535.
    Offset,
    /// 6: a stretched line of over 16,384 records.
    Stretched,
    /// 7: bytes that are no written lookup.
    NoLookup,
    /// 8: the lent output is shorter than the answer.
    NoRoom,
}

impl Refusal {
    const ALL: [Refusal; 8] = [
        Refusal::Uneven,
        Refusal::TooLong,
        Refusal::OutOfRange,
        Refusal::Place,
        Refusal::Offset,
        Refusal::Stretched,
        Refusal::NoLookup,
        Refusal::NoRoom,
    ];

    /// The number of the refusal, 1 to 8.
    pub fn number(self) -> u8 {
        self as u8 + 1
    }

    /// What a call says by its number, where 0 is accepted.
    pub(crate) fn told(number: u8) -> Result<(), Refusal> {
        match number {
            0 => Ok(()),
            _ => Err(Refusal::ALL[usize::from(number) - 1]),
        }
    }
}

impl fmt::Display for Refusal {
    fn fmt(&self, to: &mut fmt::Formatter<'_>) -> fmt::Result {
        let why = match self {
            Refusal::Uneven => "columns that belong together differ in length",
            Refusal::TooLong => "a line, a context or a rule list is too long",
            Refusal::OutOfRange => "a number is out of its range",
            Refusal::Place => "a place or a range is not in the line",
            Refusal::Offset => "a lookup offset or count is above 65,535",
            Refusal::Stretched => "the stretched line is too long",
            Refusal::NoLookup => "the bytes are no written lookup",
            Refusal::NoRoom => "the output is shorter than the answer",
        };
        write!(to, "refused {}: {why}", self.number())
    }
}

impl error::Error for Refusal {}
