//! The call across `extern "C"`: the one place with unsafe code.

use crate::answer::{Answer, Refusal};

/// An answer in the numbers of the format.
#[repr(C)]
struct AnswerValues {
    number: u32,
    index: u32,
    total: u32,
    errors: u32,
}

/// The version of structs and buffers that this package is written for: `VEXIL_VERSION` of the C header.
pub const VERSION: u32 = 1;

extern "C" {
    fn vexil_version() -> u32;

    fn vexil_check(
        sheet: *const u8,
        sheet_len: usize,
        names: *const u8,
        names_len: usize,
        list: *mut u8,
        list_len: usize,
    ) -> AnswerValues;
}

/// The version of the library that is linked. A call panics where it is not [`VERSION`].
pub fn library_version() -> u32 {
    // SAFETY: the function takes nothing and gives a number.
    unsafe { vexil_version() }
}

/// A library of another version may write other bytes than this package lends it.
fn demand(version: u32) {
    assert!(
        version == VERSION,
        "the library that is linked has version {version}, and this package is for version {VERSION}"
    );
}

/// Checks the declaration on a sheet.
///
/// An accepted sheet has its violations written to `list`, in order, as many as whole records of
/// [`Violation::SIZE`](crate::Violation::SIZE) bytes fit; all other bytes are kept. The answer's total
/// counts every violation, written or not, so a call with an empty list counts them. A list of
/// [`LIST_LIMIT`](crate::format::LIST_LIMIT) bytes holds those of any sheet. A sheet that is turned down
/// changes no byte of the list.
///
/// # Panics
///
/// If the library that is linked has another version than [`VERSION`], or gives a refusal without a number from 1 to 9, which the check of this
/// repository is proved not to.
pub fn check(sheet: &[u8], names: &[u8], list: &mut [u8]) -> Answer {
    demand(library_version());
    // SAFETY: the library has the version that the struct is laid out for. Each pointer and length is that of a slice, which is valid for the whole call; `list` is
    // borrowed mutably, so that it overlaps neither of the others. The library keeps none of them.
    let values = unsafe {
        vexil_check(
            sheet.as_ptr(),
            sheet.len(),
            names.as_ptr(),
            names.len(),
            list.as_mut_ptr(),
            list.len(),
        )
    };
    if values.number == 0 {
        return Answer::Accepted {
            total: values.total,
            errors: values.errors,
        };
    }
    let refusal = Refusal::from_number(values.number).expect("a refusal has a number from 1 to 9");
    Answer::Refused {
        refusal,
        index: values.index,
    }
}

#[cfg(test)]
mod tests {
    use super::*;

    #[test]
    #[should_panic(expected = "has version 2, and this package is for version 1")]
    fn a_library_of_another_version() {
        demand(2);
    }
}
