//! Links the library that `./archive` wrote.

use std::env;
use std::path::{Path, PathBuf};
use std::process::exit;

/// The variable that names another folder for the library; a relative one begins at this package.
const FOLDER: &str = "VEXIL_CHECK_LIB_DIR";
const LIBRARY: &str = "libdilomevay.a";

/// The folder of the library: the one that the variable names, or the repository's.
fn folder() -> PathBuf {
    if let Some(given) = env::var_os(FOLDER) {
        return PathBuf::from(given);
    }
    let package = env::var_os("CARGO_MANIFEST_DIR").expect("cargo names the package's folder");
    let repository = Path::new(&package).ancestors().nth(2);
    repository
        .expect("the package stands two folders deep in the repository")
        .join("target/staticlib")
}

fn main() {
    println!("cargo:rerun-if-env-changed={FOLDER}");
    println!("cargo:rerun-if-changed=build.rs");
    let folder = folder();
    let library = folder.join(LIBRARY);
    println!("cargo:rerun-if-changed={}", library.display());
    if !library.is_file() {
        eprintln!("There is no {}.", library.display());
        eprintln!("Run `./archive` in the repository's folder, which writes it, or set");
        eprintln!("{FOLDER} to the folder that holds {LIBRARY}.");
        exit(1);
    }
    println!("cargo:rustc-link-search=native={}", folder.display());
    println!("cargo:rustc-link-lib=static=dilomevay");
}
