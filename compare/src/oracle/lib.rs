//! The oracle: the Rust's own check on sheets. `ast`, `diagnostic`, `span` and
//! `validate` are copies that `compare/build` puts beside this file.

#![allow(dead_code)]

pub mod ast;
pub mod cases;
pub mod diagnostic;
pub mod span;
pub mod validate;

pub use validate::bridge::{build, check, run, Found, Tree};
