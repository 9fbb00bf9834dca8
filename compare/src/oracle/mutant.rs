//! A changed oracle as a program: `mutant CASES` exits 1 at the first recorded case
//! whose list differs, and 0 if there is none.

#![allow(dead_code)]

mod ast;
mod cases;
mod diagnostic;
mod span;
mod validate;

use validate::bridge::{run, Found};

fn main() {
    let path = std::env::args_os().nth(1).expect("mutant CASES");
    let bytes = std::fs::read(path).expect("the recorded cases can be read");
    let mut rest = &bytes[..];
    while !rest.is_empty() {
        let case = cases::read_case(&mut rest).expect("the cases are whole");
        if run(&case.sheet, &case.names) != Ok(case.expected) {
            std::process::exit(1);
        }
    }
}
