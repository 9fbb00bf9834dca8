//! The violations that a call has written to its list.

use std::fmt;
use std::iter::FusedIterator;

use crate::class::ErrorClass;
use crate::format::word;
use crate::tree::Span;

/// How grave a violation is.
#[derive(Debug, Clone, Copy, PartialEq, Eq, PartialOrd, Ord, Hash)]
pub enum Severity {
    Error = 0,
    Warning = 1,
}

impl Severity {
    /// The letter that the program prints for it.
    pub fn letter(self) -> char {
        match self {
            Severity::Error => 'E',
            Severity::Warning => 'W',
        }
    }
}

/// A violation: its class, its severity and where it was found.
#[derive(Debug, Clone, Copy, PartialEq, Eq, Hash)]
pub struct Violation {
    pub class: ErrorClass,
    pub severity: Severity,
    pub span: Span,
}

impl Violation {
    /// The bytes of a written violation.
    pub const SIZE: usize = 12;

    /// The violation in its bytes: class, severity, a byte that is zero, offset, length.
    fn decode(bytes: &[u8]) -> Violation {
        Violation {
            class: ErrorClass::from_number(u16::from_le_bytes([bytes[0], bytes[1]])),
            severity: if bytes[2] == 0 {
                Severity::Error
            } else {
                Severity::Warning
            },
            span: Span {
                offset: word(bytes, 4),
                len: word(bytes, 8),
            },
        }
    }
}

/// The violation as the program prints it: class, `E` or `W`, offset, length.
impl fmt::Display for Violation {
    fn fmt(&self, f: &mut fmt::Formatter) -> fmt::Result {
        let Span { offset, len } = self.span;
        write!(
            f,
            "{} {} {offset} {len}",
            self.class.number(),
            self.severity.letter()
        )
    }
}

/// The violations written to a list, in order: as many as the total says, or as whole records of the
/// list hold if these are fewer.
#[derive(Debug, Clone)]
pub struct Violations<'a> {
    left: std::slice::ChunksExact<'a, u8>,
}

impl<'a> Violations<'a> {
    /// The violations of a list after a call that was accepted with that total.
    pub fn new(list: &'a [u8], total: u32) -> Violations<'a> {
        let whole = list.len() / Violation::SIZE;
        let written = usize::try_from(total).map_or(whole, |total| total.min(whole));
        Violations {
            left: list[..written * Violation::SIZE].chunks_exact(Violation::SIZE),
        }
    }
}

impl Iterator for Violations<'_> {
    type Item = Violation;

    fn next(&mut self) -> Option<Violation> {
        self.left.next().map(Violation::decode)
    }

    fn size_hint(&self) -> (usize, Option<usize>) {
        self.left.size_hint()
    }
}

impl ExactSizeIterator for Violations<'_> {}
impl FusedIterator for Violations<'_> {}
