//! What the check answers.

use std::fmt;

/// Why a sheet is turned down, in the order of the numbers, 1 to 9.
#[derive(Debug, Clone, Copy, PartialEq, Eq, PartialOrd, Ord, Hash)]
pub enum Refusal {
    /// The sheet's length is no multiple of 32, or over 32,768.
    SheetLength = 1,
    /// The names text is over 16,384 bytes.
    NamesLength,
    /// A kind or sub is unknown, or byte 3 is not 0.
    Unknown,
    /// A name part ends beyond the names text.
    NameRange,
    /// An ordinal is over 4,294,967,295.
    OrdinalRange,
    /// A record cannot follow those before it, or the sheet ends early.
    OutOfOrder,
    /// A type or condition is over 64 deep.
    TooDeep,
    /// A name is declared a second time.
    SecondDeclaration,
    /// A newtype's chain of newtypes does not end.
    EndlessChain,
}

impl Refusal {
    /// Every refusal, in the order of the numbers.
    pub const ALL: [Refusal; 9] = [
        Refusal::SheetLength,
        Refusal::NamesLength,
        Refusal::Unknown,
        Refusal::NameRange,
        Refusal::OrdinalRange,
        Refusal::OutOfOrder,
        Refusal::TooDeep,
        Refusal::SecondDeclaration,
        Refusal::EndlessChain,
    ];

    /// The number of the refusal, 1 to 9.
    pub fn number(self) -> u32 {
        self as u32
    }

    /// The refusal with that number.
    pub fn from_number(number: u32) -> Option<Refusal> {
        Refusal::ALL.into_iter().find(|r| r.number() == number)
    }
}

/// The refusal in words.
impl fmt::Display for Refusal {
    fn fmt(&self, f: &mut fmt::Formatter) -> fmt::Result {
        f.write_str(match self {
            Refusal::SheetLength => "the sheet's length is no multiple of 32, or over 32768",
            Refusal::NamesLength => "the names text is over 16384 bytes",
            Refusal::Unknown => "a kind or sub is unknown, or byte 3 is not 0",
            Refusal::NameRange => "a name part ends beyond the names text",
            Refusal::OrdinalRange => "an ordinal is over 4294967295",
            Refusal::OutOfOrder => {
                "a record cannot follow those before it, or the sheet ends early"
            }
            Refusal::TooDeep => "a type or condition is over 64 deep",
            Refusal::SecondDeclaration => "a name is declared a second time",
            Refusal::EndlessChain => "a newtype's chain of newtypes does not end",
        })
    }
}

/// What the check answers for a sheet.
#[derive(Debug, Clone, Copy, PartialEq, Eq, Hash)]
pub enum Answer {
    /// The sheet holds a declaration: how many violations it has, and how many of them are errors.
    Accepted { total: u32, errors: u32 },
    /// The sheet is turned down, at the record of that index. The index is 0 for
    /// [`Refusal::SheetLength`] and [`Refusal::NamesLength`], and the number of records where the sheet
    /// ends early.
    Refused { refusal: Refusal, index: u32 },
}

/// The answer as the program prints it: `total 1 errors 1` or `refused 4 at 2`.
impl fmt::Display for Answer {
    fn fmt(&self, f: &mut fmt::Formatter) -> fmt::Result {
        match self {
            Answer::Accepted { total, errors } => write!(f, "total {total} errors {errors}"),
            Answer::Refused { refusal, index } => {
                write!(f, "refused {} at {index}", refusal.number())
            }
        }
    }
}
