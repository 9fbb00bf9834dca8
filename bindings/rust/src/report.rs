//! A call with all of its list.

use std::fmt;

use crate::answer::Answer;
use crate::call::check;
use crate::format::LIST_LIMIT;
use crate::violation::{Violation, Violations};

/// The answer for a sheet, with every violation.
#[derive(Debug, Clone, PartialEq, Eq)]
pub struct Report {
    pub answer: Answer,
    pub violations: Vec<Violation>,
}

impl Report {
    /// Checks the declaration on a sheet, with room for all of its violations.
    pub fn of(sheet: &[u8], names: &[u8]) -> Report {
        let mut list = vec![0; LIST_LIMIT];
        let answer = check(sheet, names, &mut list);
        let violations = match answer {
            Answer::Accepted { total, .. } => Violations::new(&list, total).collect(),
            Answer::Refused { .. } => Vec::new(),
        };
        Report { answer, violations }
    }
}

/// The lines that the program prints.
impl fmt::Display for Report {
    fn fmt(&self, f: &mut fmt::Formatter) -> fmt::Result {
        for violation in &self.violations {
            writeln!(f, "{violation}")?;
        }
        writeln!(f, "{}", self.answer)
    }
}
