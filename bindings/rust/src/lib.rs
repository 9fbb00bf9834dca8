//! The check of Vexil declarations over record sheets, called from Rust.
//!
//! A sheet is a declaration laid out as records of 32 bytes, with a names text that its names are
//! parts of. The check turns a sheet down, or lists every violation with class, severity and span.
//! It is written in Rattle and proved; this package links it (see `build.rs`) and wraps it safely.
//!
//! - [`check`] is the call itself, on byte slices. It allocates nothing.
//! - [`library_version`] is the version of the library that is linked; [`check`] panics where it is not [`VERSION`].
//! - [`Violations`] reads the list that a call has written; [`Report`] is a call with all of its list.
//! - [`Context`] lays out sheets from the values of [`tree`], which have the compiler's shape.
//! - [`text`] shows a sheet as text and makes one from text; the program `sheet` is made of it.
//!
//! ```
//! use vexil_check::tree::*;
//! use vexil_check::Context;
//!
//! let at = |offset, len| Span { offset, len };
//! let field = MessageField {
//!     name: Spanned::new("a".into(), at(10, 1)),
//!     ordinal: Spanned::new(3, at(12, 1)),
//!     annotations: vec![],
//!     ty: Spanned::new(TypeExpr::Primitive(PrimitiveType::U8), at(16, 2)),
//!     where_clause: None,
//! };
//! let retired = Tombstone { ordinal: 3, span: at(0, 9) };
//! let message = Decl {
//!     name: Spanned::new("Request".into(), at(0, 0)),
//!     body: Body::Message(vec![
//!         MessageBodyItem::Tombstone(retired),
//!         MessageBodyItem::Field(field),
//!     ]),
//! };
//! let sheet = Context::new().sheet(&message).unwrap();
//! assert_eq!(sheet.report().to_string(), "16 E 12 1\ntotal 1 errors 1\n");
//! ```

mod answer;
mod call;
mod class;
mod context;
pub mod format;
mod names;
mod report;
pub mod text;
pub mod tree;
mod violation;

pub use answer::{Answer, Refusal};
pub use call::{check, library_version, VERSION};
pub use class::ErrorClass;
pub use context::{BuildError, Context, Fault, Sheet};
pub use report::Report;
pub use violation::{Severity, Violation, Violations};
