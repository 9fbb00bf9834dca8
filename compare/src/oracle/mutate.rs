//! `mutate COPIES MUTANT CASES SAME [--only TEXT] [--again FILE] [--jobs N] [--list]`:
//! how many small changes to the Rust the recorded cases catch.
//!
//! COPIES is the folder of the oracle's sources, MUTANT the program around them,
//! CASES a file of recorded cases, SAME the list of changes that leave the program
//! the same. Each change is compiled and run over the cases. The work is done in
//! folders beside COPIES. With `--only`, the changes whose name has that text; with
//! `--again`, those that survived by a former run's output.

mod mutants;
mod tokens;

use std::fs;
use std::path::{Path, PathBuf};
use std::process::{Child, Command, ExitCode, Stdio};
use std::sync::atomic::{AtomicUsize, Ordering};
use std::sync::Mutex;
use std::time::{Duration, Instant};

use mutants::{File, Mutant};

/// The stand-ins that the sources use.
const LIBRARIES: [&str; 2] = ["smol_str", "semver"];

/// A changed program that runs longer has no end, which is a difference.
const LONGEST_RUN: Duration = Duration::from_secs(120);

#[derive(Debug, Clone, Copy, PartialEq, Eq)]
enum Outcome {
    DoesNotCompile,
    Caught,
    Survived,
}

struct Options {
    copies: PathBuf,
    mutant: PathBuf,
    cases: PathBuf,
    same: PathBuf,
    only: Option<String>,
    again: Option<PathBuf>,
    jobs: usize,
    list: bool,
}

fn main() -> ExitCode {
    match options().and_then(|options| mutate(&options)) {
        Ok(good) => ExitCode::from(u8::from(!good)),
        Err(why) => {
            eprintln!("{why}");
            ExitCode::from(2)
        }
    }
}

fn options() -> Result<Options, String> {
    let mut paths = Vec::new();
    let (mut only, mut again, mut jobs, mut list) = (None, None, 1, false);
    let mut args = std::env::args().skip(1);
    while let Some(arg) = args.next() {
        let mut value = || args.next().ok_or(format!("{arg} needs a value"));
        match arg.as_str() {
            "--only" => only = Some(value()?),
            "--again" => again = Some(PathBuf::from(value()?)),
            "--jobs" => jobs = value()?.parse().map_err(|_| "--jobs needs a number")?,
            "--list" => list = true,
            _ => paths.push(PathBuf::from(arg)),
        }
    }
    let [copies, mutant, cases, same] = <[PathBuf; 4]>::try_from(paths)
        .map_err(|_| "mutate COPIES MUTANT CASES SAME [OPTION ..]")?;
    Ok(Options {
        copies,
        mutant,
        cases,
        same,
        only,
        again,
        jobs,
        list,
    })
}

// ---------------------------------------------------------------------------
// The run
// ---------------------------------------------------------------------------

/// Whether every change is caught or known to leave the program the same.
fn mutate(options: &Options) -> Result<bool, String> {
    let read = |name: &str| text_of(&options.copies.join(name));
    let (validate, diagnostic) = (read("validate.rs")?, read("diagnostic.rs")?);
    let mut all = mutants::mutants(&validate, &diagnostic, &read("ast/mod.rs")?)?;
    if let Some(only) = &options.only {
        all.each
            .retain(|mutant| mutant.key.join(" | ").contains(only));
    }
    if let Some(path) = &options.again {
        let output = text_of(path)?;
        let survivors: Vec<&str> = output
            .lines()
            .filter_map(|line| Some(line.strip_prefix("survived: ")?.split_once(": ")?.1))
            .collect();
        all.each
            .retain(|mutant| survivors.contains(&mutant.key.join(" | ").as_str()));
    }
    if options.list {
        for mutant in &all.each {
            println!("{}", mutant.key.join(" | "));
        }
        return Ok(true);
    }

    // One run at a time; released when it ends.
    let lock = fs::File::create(options.copies.with_file_name("mutate.lock"));
    let lock = lock.map_err(|e| e.to_string())?;
    lock.lock().map_err(|e| e.to_string())?;

    let workshop = Workshop::new(options, 0)?;
    if workshop.outcome(None)? != Outcome::Survived {
        return Err("the Rust as it is differs from the recorded lists".to_string());
    }
    workshop.put("validate.rs", &all.texts)?;
    if workshop.outcome(None)? != Outcome::Survived {
        return Err("a text of the Rust alters a list".to_string());
    }
    workshop.put("validate.rs", &validate)?;
    println!(
        "{} texts changed at once: no list differs",
        all.texts_changed
    );

    let outcomes = outcomes(options, &all.each, [&validate, &diagnostic])?;
    let mut same = Same::read(&options.same)?;
    let mut survivors = 0;
    let mut counts = [0; 4];
    for (mutant, outcome) in all.each.iter().zip(outcomes) {
        let known = same.covers(mutant, outcome);
        match outcome {
            Outcome::DoesNotCompile => counts[0] += 1,
            Outcome::Caught => counts[1] += 1,
            Outcome::Survived if known => counts[2] += 1,
            Outcome::Survived => {
                counts[3] += 1;
                survivors += 1;
                println!("survived: {}", described(mutant, [&validate, &diagnostic]));
            }
        }
    }
    let mut good = survivors == 0;
    for complaint in same.complaints(options.only.is_some() || options.again.is_some()) {
        println!("{complaint}");
        good = false;
    }
    let [not_compiled, caught, equal, _] = counts;
    println!(
        "{} changes: {caught} caught, {equal} the same program, {survivors} survived; \
         {not_compiled} more do not compile",
        caught + equal + survivors,
    );
    Ok(good)
}

/// The outcome of each change, in order.
fn outcomes(
    options: &Options,
    mutants: &[Mutant],
    sources: [&String; 2],
) -> Result<Vec<Outcome>, String> {
    let next = AtomicUsize::new(0);
    let done = Mutex::new(vec![None; mutants.len()]);
    let work = |job: usize| -> Result<(), String> {
        let workshop = Workshop::new(options, job)?;
        loop {
            let i = next.fetch_add(1, Ordering::Relaxed);
            let Some(mutant) = mutants.get(i) else {
                return Ok(());
            };
            let outcome = workshop.outcome(Some((mutant, sources)))?;
            done.lock().unwrap()[i] = Some(outcome);
            if (i + 1) % 100 == 0 {
                eprintln!("{} of {}", i + 1, mutants.len());
            }
        }
    };
    std::thread::scope(|scope| {
        let jobs: Vec<_> = (0..options.jobs)
            .map(|job| scope.spawn(move || work(job)))
            .collect();
        jobs.into_iter().try_for_each(|job| job.join().unwrap())
    })?;
    Ok(done.into_inner().unwrap().into_iter().flatten().collect())
}

/// A change with its place, for a reader and for the list of equal programs.
fn described(mutant: &Mutant, [validate, diagnostic]: [&String; 2]) -> String {
    let (name, source) = match mutant.file {
        File::Validate => ("validate.rs", validate),
        File::Diagnostic => ("diagnostic.rs", diagnostic),
    };
    let before = &source[..mutant.place.start];
    let line = before.matches('\n').count() + 1;
    let column = before.len() - before.rfind('\n').map_or(0, |at| at + 1) + 1;
    format!("{name}:{line}:{column}: {}", mutant.key.join(" | "))
}

// ---------------------------------------------------------------------------
// Compiling and running one change
// ---------------------------------------------------------------------------

/// A folder with the sources, the compiler's memory of them, and the program.
struct Workshop<'a> {
    options: &'a Options,
    folder: PathBuf,
}

impl<'a> Workshop<'a> {
    fn new(options: &'a Options, job: usize) -> Result<Self, String> {
        let folder = options.copies.with_file_name(format!("mutants-{job}"));
        for part in ["ast", "validate"] {
            fs::create_dir_all(folder.join(part)).map_err(|e| e.to_string())?;
        }
        let workshop = Self { options, folder };
        for name in [
            "ast/mod.rs",
            "ast/visit.rs",
            "cases.rs",
            "diagnostic.rs",
            "span.rs",
            "validate.rs",
            "validate/bridge.rs",
        ] {
            workshop.put(name, &text_of(&options.copies.join(name))?)?;
        }
        workshop.put("main.rs", &text_of(&options.mutant)?)?;
        for library in LIBRARIES {
            let name = format!("lib{library}.rlib");
            let from = options.copies.with_file_name(&name);
            let copied = fs::copy(&from, workshop.folder.join(&name));
            copied.map_err(|e| format!("{}: {e}", from.display()))?;
        }
        Ok(workshop)
    }

    fn put(&self, name: &str, text: &str) -> Result<(), String> {
        let path = self.folder.join(name);
        fs::write(&path, text).map_err(|e| format!("{}: {e}", path.display()))
    }

    /// What becomes of a change, or of the sources as they lie there.
    fn outcome(&self, change: Option<(&Mutant, [&String; 2])>) -> Result<Outcome, String> {
        let Some((mutant, [validate, diagnostic])) = change else {
            return self.compile_and_run();
        };
        let (name, source) = match mutant.file {
            File::Validate => ("validate.rs", validate),
            File::Diagnostic => ("diagnostic.rs", diagnostic),
        };
        let mut changed = source.clone();
        changed.replace_range(mutant.place.clone(), &mutant.new);
        self.put(name, &changed)?;
        let outcome = self.compile_and_run();
        self.put(name, source)?;
        outcome
    }

    fn compile_and_run(&self) -> Result<Outcome, String> {
        let program = self.folder.join("mutant");
        let memory = format!("incremental={}", self.folder.join("memory").display());
        let compiled = Command::new("rustc")
            .args(["--edition", "2021", "--cap-lints", "allow"])
            .args(["--crate-name", "mutant", "-C", &memory])
            .args(["-C", "prefer-dynamic", "-C", "rpath"])
            .args(LIBRARIES.iter().flat_map(|name| ["--extern", name]))
            .arg("-L")
            .arg(&self.folder)
            .arg("-o")
            .arg(&program)
            .arg(self.folder.join("main.rs"))
            .output()
            .map_err(|e| format!("rustc: {e}"))?;
        if !compiled.status.success() {
            let why = String::from_utf8_lossy(&compiled.stderr);
            return match is_of_the_change(&why) {
                true => Ok(Outcome::DoesNotCompile),
                false => Err(format!("rustc fails, and not at the change:\n{why}")),
            };
        }
        let run = Command::new(&program)
            .arg(&self.options.cases)
            .stderr(Stdio::null())
            .spawn()
            .map_err(|e| format!("{}: {e}", program.display()))?;
        Ok(match ended_well(run)? {
            true => Outcome::Survived,
            false => Outcome::Caught,
        })
    }
}

/// Whether a compiler's complaint can come from a change: it is about one of the two
/// sources, and no library is missing.
fn is_of_the_change(complaint: &str) -> bool {
    let missing = ["E0432", "E0433", "E0460", "E0461", "E0463", "E0514"];
    let sources = ["validate.rs:", "diagnostic.rs:"];
    sources.iter().any(|name| complaint.contains(name))
        && !missing.iter().any(|code| complaint.contains(code))
}

/// Whether a program ends in time and with 0.
fn ended_well(mut run: Child) -> Result<bool, String> {
    let start = Instant::now();
    while start.elapsed() < LONGEST_RUN {
        if let Some(status) = run.try_wait().map_err(|e| e.to_string())? {
            return Ok(status.success());
        }
        std::thread::sleep(Duration::from_millis(2));
    }
    run.kill()
        .and_then(|()| run.wait())
        .map_err(|e| e.to_string())?;
    Ok(false)
}

fn text_of(path: &Path) -> Result<String, String> {
    fs::read_to_string(path).map_err(|e| format!("{}: {e}", path.display()))
}

// ---------------------------------------------------------------------------
// Changes that leave the program the same
// ---------------------------------------------------------------------------

/// The file of them: a line from the margin is a reason, and each indented line below
/// it a change `FUNCTION | TOKEN NUMBER | CHANGE`, in which `*` stands for any token or
/// any change.
struct Same {
    entries: Vec<Entry>,
}

struct Entry {
    key: [String; 3],
    used: bool,
    caught: Vec<String>,
}

impl Same {
    fn read(path: &Path) -> Result<Self, String> {
        let mut entries = Vec::new();
        let mut reason = "";
        let text = text_of(path)?;
        for line in text.lines().filter(|line| !line.trim().is_empty()) {
            if !line.starts_with(' ') {
                reason = line;
                continue;
            }
            let key: Vec<String> = line.trim().splitn(3, " | ").map(String::from).collect();
            match <[String; 3]>::try_from(key) {
                Ok(key) if !reason.is_empty() => entries.push(Entry {
                    key,
                    used: false,
                    caught: Vec::new(),
                }),
                _ => return Err(format!("{}: cannot read: {line}", path.display())),
            }
        }
        Ok(Self { entries })
    }

    /// Whether a line covers the change; notes lines that a caught change belies.
    fn covers(&mut self, mutant: &Mutant, outcome: Outcome) -> bool {
        let mut covered = false;
        for entry in &mut self.entries {
            let fits = entry
                .key
                .iter()
                .zip(&mutant.key)
                .all(|(a, b)| a == "*" || a == b);
            if fits && outcome == Outcome::Survived {
                entry.used = true;
                covered = true;
            }
            if fits && outcome == Outcome::Caught {
                entry.caught.push(mutant.key.join(" | "));
            }
        }
        covered
    }

    /// Lines that are wrong, and, unless only some changes were run, lines of no use.
    fn complaints(&self, partial: bool) -> Vec<String> {
        let mut complaints = Vec::new();
        for entry in &self.entries {
            let key = entry.key.join(" | ");
            for caught in &entry.caught {
                complaints.push(format!("not the same program: {caught} (line {key})"));
            }
            if !entry.used && !partial {
                complaints.push(format!("no such survivor: {key}"));
            }
        }
        complaints
    }
}
