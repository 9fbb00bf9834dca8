//! One case: the second reading's answer against the oracles'.

use crate::format::{has_name, Record, RECORD};
use crate::reading::{Answer, Violation};
use std::ops::RangeInclusive;
use std::panic::catch_unwind;

/// Class, severity, offset and length of a violation: what the Rust tells too.
pub type Told = (u16, u8, u32, u32);

/// The rules that the Rust has. What another rule finds, the second reading alone says.
pub const RULES_OF_THE_RUST: RangeInclusive<u16> = 1..=38;

/// What the Rust decides of a sheet and a names text.
pub enum Decided {
    /// Of what rows 1 to 8 refuse there is no tree.
    NoTree,
    /// The list, without what rules tell that the Rust has not.
    List(Vec<Told>),
    /// Nothing: in a ring of newtypes (row 9) it does not end, and its names are UTF-8.
    Nothing,
}

/// What the Rust decides where this is the answer. All else of an answer is held to the second
/// reading alone.
pub fn decided_by_the_rust(sheet: &[u8], names: &[u8], answer: &Answer) -> Decided {
    match answer.number {
        0 if names_are_utf8(sheet, names) => {
            let list = answer.list.iter();
            let decided = list.filter(|v| RULES_OF_THE_RUST.contains(&v.rule));
            Decided::List(decided.map(told).collect())
        }
        1..=8 => Decided::NoTree,
        _ => Decided::Nothing,
    }
}

/// What a comparison of one case comes to.
pub enum Outcome {
    /// The Rust decides no list.
    NotAsked,
    Equal,
    Different(String),
}

/// Compares with both oracles what the Rust decides of an answer.
pub fn against_oracles(sheet: &[u8], names: &[u8], answer: &Answer) -> Outcome {
    let ours = match decided_by_the_rust(sheet, names, answer) {
        Decided::List(list) => list,
        Decided::Nothing => return Outcome::NotAsked,
        Decided::NoTree if oracle_plain::build(sheet, names).is_err() => return Outcome::NotAsked,
        Decided::NoTree => {
            return Outcome::Different("refused, but the oracle makes a tree of it".to_string())
        }
    };
    for (name, theirs) in [("plain", plain(sheet, names)), ("lean", lean(sheet, names))] {
        match theirs {
            Ok(theirs) if theirs == ours => {}
            Ok(theirs) => return Outcome::Different(difference(name, &ours, &theirs)),
            Err(message) => return Outcome::Different(format!("oracle {name}: {message}")),
        }
    }
    Outcome::Equal
}

fn told(v: &Violation) -> Told {
    (v.class, v.severity, v.offset, v.len)
}

fn difference(name: &str, ours: &[Told], theirs: &[Told]) -> String {
    let at = ours.iter().zip(theirs).take_while(|(a, b)| a == b).count();
    format!(
        "oracle {name}, first difference at violation {at}: ours {:?}, oracle {:?}",
        ours.get(at),
        theirs.get(at)
    )
}

/// The list of the oracle that is the Rust as it is.
pub fn plain(sheet: &[u8], names: &[u8]) -> Result<Vec<Told>, String> {
    let found =
        catch_unwind(|| oracle_plain::run(sheet, names)).map_err(|_| "panics".to_string())??;
    Ok(found
        .iter()
        .map(|f| (f.class, f.severity, f.offset, f.len))
        .collect())
}

/// The list of the oracle with stand-ins for texts and codes.
pub fn lean(sheet: &[u8], names: &[u8]) -> Result<Vec<Told>, String> {
    let found =
        catch_unwind(|| oracle_lean::run(sheet, names)).map_err(|_| "panics".to_string())??;
    Ok(found
        .iter()
        .map(|f| (f.class, f.severity, f.offset, f.len))
        .collect())
}

/// Whether each record's name part is UTF-8 by itself; only for accepted sheets.
fn names_are_utf8(sheet: &[u8], names: &[u8]) -> bool {
    sheet
        .chunks_exact(RECORD)
        .map(Record::decode)
        .all(|record| {
            let part = || &names[record.name_offset as usize..record.name_end() as usize];
            !has_name(record.kind, record.sub) || std::str::from_utf8(part()).is_ok()
        })
}
