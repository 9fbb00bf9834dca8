//! Cases with their expected answers in a file, for other programs to read: `cases` writes
//! those of a seed, `record` the ones that the repository keeps.
//!
//! All numbers are little-endian. The file is the 8 bytes `cases 1\n`, the number of
//! cases (u64), then the cases one after another:
//!
//!     u32 length of the sheet, then its bytes
//!     u32 length of the names text, then its bytes
//!     u32 number, u32 index, u32 total, u32 errors
//!     total times 16 bytes: class u16, severity u8, zero u8, offset u32, length u32,
//!                           rule u16, record u16
//!
//! The first 12 bytes of each violation are those that the list holds. An accepted case
//! has number 0 and index 0, a refused one total 0 and errors 0. Nothing follows the last
//! case. In the file that `record` writes one case's errors are one too few, on purpose.

use crate::format::VIOLATION;
use crate::generate::Case;
use crate::reading::{written, Answer};
use std::io::{self, Write};

pub const MAGIC: &[u8; 8] = b"cases 1\n";

pub fn write_start(out: &mut impl Write, count: u64) -> io::Result<()> {
    out.write_all(MAGIC)?;
    out.write_all(&count.to_le_bytes())
}

pub fn write_case(out: &mut impl Write, case: &Case, answer: &Answer) -> io::Result<()> {
    for bytes in [&case.sheet, &case.names] {
        out.write_all(&(bytes.len() as u32).to_le_bytes())?;
        out.write_all(bytes)?;
    }
    for number in [answer.number, answer.index, answer.total, answer.errors] {
        out.write_all(&number.to_le_bytes())?;
    }
    let mut list = vec![0; VIOLATION * answer.list.len()];
    written(answer, &mut list);
    for (violation, bytes) in answer.list.iter().zip(list.chunks_exact(VIOLATION)) {
        out.write_all(bytes)?;
        out.write_all(&violation.rule.to_le_bytes())?;
        out.write_all(&violation.record.to_le_bytes())?;
    }
    Ok(())
}
