//! Sheets as text: [`show`] writes the text of a sheet, [`make`] makes the sheet of a text.
//!
//! The notation is described in `docs/SHEET_TEXT.md`. Every sheet and every names text has a text, and
//! making the sheet of that text gives the same bytes again:
//!
//! ```
//! let text = r#"
//! head message "Request"
//!   field-tombstone 3
//!   field "a" 3 span 10 1 ordinal-span 12 1
//!     primitive u8
//! "#;
//! let sheet = vexil_check::text::make(text.as_bytes()).unwrap();
//! assert_eq!(sheet.report().to_string(), "16 E 12 1\ntotal 1 errors 1\n");
//! assert_eq!(vexil_check::text::show(&sheet.records, &sheet.names), text.trim_start());
//! ```

mod depth;
mod make;
mod scan;
mod show;

pub use make::make;
pub use scan::TextError;
pub use show::{show, show_indexed};

/// The words that items of a line begin with.
mod word {
    pub(super) const NAMES: &str = "names";
    pub(super) const REST: &str = "rest";
    pub(super) const KIND: &str = "kind";
    pub(super) const SUB: &str = "sub";
    pub(super) const NAME: &str = "name";
    pub(super) const VALUE: &str = "value";
    pub(super) const SPAN: &str = "span";
    pub(super) const ORDINAL_SPAN: &str = "ordinal-span";
    pub(super) const BYTE3: &str = "byte3";
}

/// Where a text first has a part; the empty part is at the start.
fn first_place(text: &[u8], part: &[u8]) -> Option<usize> {
    if part.is_empty() {
        return Some(0);
    }
    text.windows(part.len()).position(|window| window == part)
}
