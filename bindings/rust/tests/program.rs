//! What the program prints on its own examples, printed by the package.

use std::fs;
use std::path::Path;

use vexil_check::Report;

#[test]
fn the_runs_of_the_program() {
    let crates = Path::new(env!("CARGO_MANIFEST_DIR")).join("../../crates");
    for run in [
        "vexil_check",
        "vexil_check_errors",
        "vexil_check_refused",
        "vexil_check_exchanged",
    ] {
        let folder = crates.join(run);
        // A missing file is an empty one.
        let read = |name: &str| fs::read(folder.join("data").join(name)).unwrap_or_default();
        let report = Report::of(&read("body.sheet"), &read("body.names"));
        let printed = fs::read_to_string(folder.join("stdout")).unwrap();
        assert_eq!(report.to_string(), printed, "{run}");
    }
}
