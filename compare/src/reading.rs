//! A second reading of document 01: the answer for every sheet and names text,
//! written from the document's text and from nothing else.
//!
//! First the records are read into a tree, which gives the refusals (rows 1 to 9),
//! then the rules go over the tree in the document's order.

mod refusals;
mod rules;
mod tree;

use crate::format::VIOLATION;
use std::ops::RangeInclusive;

/// What the check answers: a refusal if `number` is 1 to 9, else the full list.
#[derive(Debug, Clone, PartialEq, Eq)]
pub struct Answer {
    pub number: u32,
    pub index: u32,
    pub total: u32,
    pub errors: u32,
    pub list: Vec<Violation>,
}

#[derive(Debug, Clone, Copy, PartialEq, Eq)]
pub struct Violation {
    pub class: u16,
    pub severity: u8,
    pub offset: u32,
    pub len: u32,
    /// The rule of document 01, one of `RULES`.
    pub rule: u16,
    /// The index of the record whose span is given.
    pub record: u16,
}

pub const ERROR: u8 = 0;
pub const WARNING: u8 = 1;

/// The class of each rule, in the rules' order.
const CLASSES: [u16; 38] = [
    68, 15, 16, 14, 13, // field list
    18, 17, 28, 51, 29, 40, 41, // type
    54, 52, 53, 55, 49, 51, 50, 47, 47, 45, // annotations
    63, 63, 63, 63, 66, 67, 64, 65, // condition
    35, 34, 36, 39, 43, 42, 19, 20, // enum, flags, union, newtype
];

/// The rules' numbers.
pub const RULES: RangeInclusive<u16> = 1..=CLASSES.len() as u16;

/// Class and severity of a rule; 21 is the one warning.
pub fn class_and_severity(rule: u16) -> (u16, u8) {
    let severity = if rule == 21 { WARNING } else { ERROR };
    (CLASSES[usize::from(rule) - 1], severity)
}

/// The answer for a sheet and a names text of any length and content.
pub fn answer(sheet: &[u8], names: &[u8]) -> Answer {
    match check(sheet, names) {
        Ok(list) => accepted(list),
        Err(refusal) => Answer {
            number: refusal.number,
            index: refusal.index as u32,
            total: 0,
            errors: 0,
            list: Vec::new(),
        },
    }
}

/// Puts into the list buffer what a call leaves there.
pub fn written(answer: &Answer, buffer: &mut [u8]) {
    for (violation, place) in answer.list.iter().zip(buffer.chunks_exact_mut(VIOLATION)) {
        place[..2].copy_from_slice(&violation.class.to_le_bytes());
        place[2] = violation.severity;
        place[3] = 0;
        place[4..8].copy_from_slice(&violation.offset.to_le_bytes());
        place[8..].copy_from_slice(&violation.len.to_le_bytes());
    }
}

/// The program's lines.
pub fn printed(answer: &Answer) -> String {
    if answer.number != 0 {
        return format!("refused {} at {}\n", answer.number, answer.index);
    }
    let mut lines = String::new();
    for v in &answer.list {
        let letter = if v.severity == ERROR { 'E' } else { 'W' };
        lines += &format!("{} {} {} {}\n", v.class, letter, v.offset, v.len);
    }
    lines + &format!("total {} errors {}\n", answer.total, answer.errors)
}

fn accepted(list: Vec<Violation>) -> Answer {
    let errors = list.iter().filter(|v| v.severity == ERROR).count();
    Answer {
        number: 0,
        index: 0,
        total: list.len() as u32,
        errors: errors as u32,
        list,
    }
}

fn check(sheet: &[u8], names: &[u8]) -> Result<Vec<Violation>, refusals::Refusal> {
    let sheet = refusals::sheet(sheet, names)?;
    let (context, body) = refusals::read(&sheet)?;
    Ok(rules::violations(&sheet, &context, &body))
}
