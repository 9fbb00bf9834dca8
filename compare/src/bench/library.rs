//! The built library's entry.

/// An answer's four numbers.
#[repr(C)]
#[derive(Debug, Clone, Copy, PartialEq, Eq)]
pub struct Answer {
    pub number: u32,
    pub index: u32,
    pub total: u32,
    pub errors: u32,
}

#[link(name = "dilomevay", kind = "static")]
extern "C" {
    fn vexil_check(
        sheet: *const u8,
        sheet_len: usize,
        names: *const u8,
        names_len: usize,
        list: *mut u8,
        list_len: usize,
    ) -> Answer;
}

pub fn check(sheet: &[u8], names: &[u8], list: &mut [u8]) -> Answer {
    // SAFETY: three parts of memory, the last one lent to be changed.
    unsafe {
        vexil_check(
            sheet.as_ptr(),
            sheet.len(),
            names.as_ptr(),
            names.len(),
            list.as_mut_ptr(),
            list.len(),
        )
    }
}
