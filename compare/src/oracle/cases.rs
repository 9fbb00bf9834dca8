//! Recorded cases: sheets with the list that is expected of each.
//!
//! A case is three lengths (u32: bytes of the sheet, bytes of the names text,
//! violations), then the sheet, the names text, and 12 bytes for each violation as
//! document 01 lays them out. Numbers are little-endian; cases stand one after
//! another.

use std::fs::File;
use std::io::{self, BufWriter, Write};
use std::path::Path;

use crate::Found;

pub struct Case {
    pub sheet: Vec<u8>,
    pub names: Vec<u8>,
    pub expected: Vec<Found>,
}

/// Writes the cases to a file, replacing it.
pub fn write_cases(path: &Path, cases: impl IntoIterator<Item = Case>) -> io::Result<()> {
    let mut out = BufWriter::new(File::create(path)?);
    for case in cases {
        write_case(&mut out, &case)?;
    }
    out.flush()
}

/// Writes one case.
pub fn write_case(out: &mut impl Write, case: &Case) -> io::Result<()> {
    for len in [case.sheet.len(), case.names.len(), case.expected.len()] {
        out.write_all(&(len as u32).to_le_bytes())?;
    }
    out.write_all(&case.sheet)?;
    out.write_all(&case.names)?;
    for found in &case.expected {
        out.write_all(&found.class.to_le_bytes())?;
        out.write_all(&[found.severity, 0])?;
        out.write_all(&found.offset.to_le_bytes())?;
        out.write_all(&found.len.to_le_bytes())?;
    }
    Ok(())
}

/// Takes a case off the start of a file's bytes; none if they hold no whole one.
pub fn read_case(rest: &mut &[u8]) -> Option<Case> {
    let sheet = read_u32(rest)? as usize;
    let names = read_u32(rest)? as usize;
    let violations = read_u32(rest)?;
    Some(Case {
        sheet: rest.split_off(..sheet)?.to_vec(),
        names: rest.split_off(..names)?.to_vec(),
        expected: (0..violations)
            .map(|_| read_found(rest))
            .collect::<Option<_>>()?,
    })
}

fn read_found(rest: &mut &[u8]) -> Option<Found> {
    let head = rest.split_off(..4)?;
    Some(Found {
        class: u16::from_le_bytes([head[0], head[1]]),
        severity: head[2],
        offset: read_u32(rest)?,
        len: read_u32(rest)?,
    })
}

fn read_u32(rest: &mut &[u8]) -> Option<u32> {
    Some(u32::from_le_bytes(rest.split_off(..4)?.try_into().ok()?))
}
