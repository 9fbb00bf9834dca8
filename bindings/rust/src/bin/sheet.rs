//! Shows a sheet as text and makes one from text; the notation is described in `docs/SHEET_TEXT.md`.

use std::io::Write;
use std::path::Path;
use std::process::ExitCode;
use std::{env, fs, io};

use vexil_check::text;

const USAGE: &str = "\
usage: sheet show [--index] SHEET NAMES   prints the text of a sheet and its names text;
                                          --index adds each record's index as a comment
       sheet make TEXT FOLDER             writes FOLDER/body.sheet and FOLDER/body.names";

fn main() -> ExitCode {
    let arguments: Vec<String> = env::args().skip(1).collect();
    let arguments: Vec<&str> = arguments.iter().map(String::as_str).collect();
    let result = match arguments[..] {
        ["show", sheet, names] if sheet != "--index" => show(sheet, names, text::show),
        ["show", "--index", sheet, names] => show(sheet, names, text::show_indexed),
        ["make", file, folder] => make(file, Path::new(folder)),
        _ => {
            eprintln!("{USAGE}");
            return ExitCode::from(2);
        }
    };
    match result {
        Ok(()) => ExitCode::SUCCESS,
        Err(message) => {
            eprintln!("{message}");
            ExitCode::FAILURE
        }
    }
}

fn read(file: &str) -> Result<Vec<u8>, String> {
    fs::read(file).map_err(|error| format!("{file}: {error}"))
}

fn show(sheet: &str, names: &str, text: fn(&[u8], &[u8]) -> String) -> Result<(), String> {
    let text = text(&read(sheet)?, &read(names)?);
    let written = io::stdout().write_all(text.as_bytes());
    written.map_err(|error| format!("standard output: {error}"))
}

fn make(file: &str, folder: &Path) -> Result<(), String> {
    let sheet = text::make(&read(file)?).map_err(|error| format!("{file}:{error}"))?;
    let write = |name: &str, bytes: &[u8]| {
        let path = folder.join(name);
        fs::write(&path, bytes).map_err(|error| format!("{}: {error}", path.display()))
    };
    fs::create_dir_all(folder).map_err(|error| format!("{}: {error}", folder.display()))?;
    write("body.sheet", &sheet.records)?;
    write("body.names", &sheet.names)
}
