//! The program `sheet`.

use std::fs;
use std::path::{Path, PathBuf};
use std::process::{Command, Output};

fn sheet(arguments: &[&str]) -> Output {
    Command::new(env!("CARGO_BIN_EXE_sheet"))
        .args(arguments)
        .output()
        .expect("the program runs")
}

/// An empty folder for a test.
fn folder(name: &str) -> PathBuf {
    let folder = Path::new(env!("CARGO_TARGET_TMPDIR")).join(name);
    let _ = fs::remove_dir_all(&folder);
    fs::create_dir_all(&folder).unwrap();
    folder
}

fn path(path: &Path) -> &str {
    path.to_str().unwrap()
}

const TEXT: &str = "head message \"M\"\n  field \"a\" 1\n    primitive u8\n";

#[test]
fn makes_what_it_shows() {
    let folder = folder("makes");
    let text = folder.join("case.txt");
    fs::write(&text, TEXT).unwrap();
    let out = folder.join("new").join("folder");
    let made = sheet(&["make", path(&text), path(&out)]);
    assert!(made.status.success(), "{made:?}");
    let (records, names) = (out.join("body.sheet"), out.join("body.names"));
    assert_eq!(fs::read(&records).unwrap().len(), 96);
    assert_eq!(fs::read(&names).unwrap(), b"Ma");
    let shown = sheet(&["show", path(&records), path(&names)]);
    assert!(shown.status.success(), "{shown:?}");
    assert_eq!(String::from_utf8(shown.stdout).unwrap(), TEXT);
    let indexed = sheet(&["show", "--index", path(&records), path(&names)]);
    assert!(indexed.stdout.ends_with(b"    primitive u8  # 2\n"));
}

#[test]
fn an_error_names_file_line_and_column() {
    let folder = folder("errors");
    let text = folder.join("case.txt");
    fs::write(&text, "head message\n  field 1 2\n").unwrap();
    let out = folder.join("out");
    let made = sheet(&["make", path(&text), path(&out)]);
    assert_eq!(made.status.code(), Some(1));
    let message = String::from_utf8(made.stderr).unwrap();
    assert_eq!(message, format!("{}:2:11: a second value\n", path(&text)));
    assert!(!out.exists(), "nothing is written");
}

#[test]
fn a_missing_file_is_named() {
    let shown = sheet(&["show", "no-such.sheet", "no-such.names"]);
    assert_eq!(shown.status.code(), Some(1));
    let message = String::from_utf8(shown.stderr).unwrap();
    assert!(message.starts_with("no-such.sheet: "), "{message}");
}

#[test]
fn bad_arguments_get_the_usage() {
    let wrong: [&[&str]; 6] = [
        &[],
        &["show"],
        &["show", "a"],
        &["show", "--index", "a"],
        &["make", "a"],
        &["check", "a", "b"],
    ];
    for arguments in wrong {
        let output = sheet(arguments);
        assert_eq!(output.status.code(), Some(2), "{arguments:?}");
        assert!(output.stderr.starts_with(b"usage: sheet show"));
        assert!(output.stdout.is_empty());
    }
}
