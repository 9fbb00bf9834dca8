//! Has the checker compute the definitions of `crates/rules` on recorded cases.
//!
//!     definitions RULES CASES OUT             one crate of cases beside a copy of RULES in OUT
//!     definitions RULES CASES OUT --spoil     the same with one expectation spoiled
//!     definitions RULES CASES OUT EDITS FEW   tries each edit of EDITS on the definitions
//!
//! CASES is a file that `compare cases` writes, FEW the numbers of some of them by `compare
//! select`. Each case becomes a statement that the answer, the list and the rules by which it
//! was found are those of the file; the checker refuses the statement where the definitions
//! compute to something else.

#[allow(dead_code)]
mod format;

use format::{RECORD, VIOLATION};
use std::fs;
use std::io::{Error, ErrorKind, Result};
use std::path::Path;
use std::process::{Command, ExitCode};

/// Cases in one file of statements.
const PER_FILE: usize = 100;

/// Cases that are checked together where an edit is tried on all.
const TOGETHER: usize = 1000;

const USAGE: &str = "usage: definitions RULES CASES OUT [--spoil | EDITS FEW]";

struct Case {
    sheet: Vec<u8>,
    names: Vec<u8>,
    values: [u32; 4],
    list: Vec<u8>,
    rules: Vec<u16>,
}

fn main() -> ExitCode {
    let arguments: Vec<String> = std::env::args().skip(1).collect();
    let [rules, cases, out, rest @ ..] = arguments.as_slice() else {
        eprintln!("{USAGE}");
        return ExitCode::FAILURE;
    };
    let (rules, out) = (Path::new(rules), Path::new(out));
    let done = match rest {
        [] => compute(rules, cases, out, false),
        [spoil] if spoil == "--spoil" => compute(rules, cases, out, true),
        [edits, few] => try_edits(rules, cases, out, edits, few),
        _ => Err(Error::new(ErrorKind::InvalidInput, USAGE)),
    };
    match done {
        Ok(true) => ExitCode::SUCCESS,
        Ok(false) => ExitCode::FAILURE,
        Err(error) => {
            eprintln!("{error}");
            ExitCode::FAILURE
        }
    }
}

/// Writes the crates, has them checked and tells which cases differ.
fn compute(rules: &Path, cases: &str, out: &Path, spoil: bool) -> Result<bool> {
    let mut cases = read(&fs::read(cases)?)?;
    if spoil {
        let middle = cases.len() / 2;
        cases[middle].values[2] += 1;
    }
    let numbered: Vec<(usize, &Case)> = cases.iter().enumerate().collect();
    lay_out(rules, &numbered, out)?;
    let verdict = check(out, "cases")?;
    let differing = differing(&verdict.log);
    differing.iter().take(20).for_each(|name| println!("differs: {name}"));
    let records: usize = cases.iter().map(|case| case.sheet.len() / RECORD).sum();
    let accepted = cases.iter().filter(|case| case.values[0] == 0).count();
    let told = if verdict.is_proved || !differing.is_empty() {
        format!("{} differences", differing.len())
    } else {
        print!("{}", verdict.log);
        "no verdict".to_string()
    };
    println!("{} cases, {accepted} accepted, {records} records computed: {told}", cases.len());
    Ok(verdict.is_proved)
}

// ---------------------------------------------------------------------------
// Reading the cases
// ---------------------------------------------------------------------------

fn read(bytes: &[u8]) -> Result<Vec<Case>> {
    let mut rest = bytes;
    let wrong = || Error::new(ErrorKind::InvalidData, "no file of cases");
    if part(&mut rest, 8).ok_or_else(wrong)? != b"cases 1\n" {
        return Err(wrong());
    }
    let count = u64::from_le_bytes(part(&mut rest, 8).ok_or_else(wrong)?.try_into().unwrap());
    (0..count).map(|_| read_case(&mut rest).ok_or_else(wrong)).collect()
}

fn read_case(rest: &mut &[u8]) -> Option<Case> {
    let sheet = text(rest)?;
    let names = text(rest)?;
    let values = [word(rest)?, word(rest)?, word(rest)?, word(rest)?];
    let mut list = Vec::new();
    let mut rules = Vec::new();
    for _ in 0..values[2] {
        list.extend_from_slice(part(rest, VIOLATION)?);
        rules.push(u16::from_le_bytes(part(rest, 2)?.try_into().ok()?));
        part(rest, 2)?;
    }
    Some(Case { sheet, names, values, list, rules })
}

fn part<'a>(rest: &mut &'a [u8], len: usize) -> Option<&'a [u8]> {
    let (head, tail) = rest.split_at_checked(len)?;
    *rest = tail;
    Some(head)
}

fn word(rest: &mut &[u8]) -> Option<u32> {
    Some(u32::from_le_bytes(part(rest, 4)?.try_into().ok()?))
}

fn text(rest: &mut &[u8]) -> Option<Vec<u8>> {
    let len = word(rest)? as usize;
    part(rest, len).map(<[u8]>::to_vec)
}

// ---------------------------------------------------------------------------
// Writing the crates
// ---------------------------------------------------------------------------

const TEST: &str = "\
use Prim.Native.Nat.{ℕ}
use mathlib.Core.Path.{◌≡◌, refl}
use mathlib.Core.Bool.{Bool, true, false, ◌&&◌}
use mathlib.Core.List.{List, [], ◌∷◌, map, flat_map}
use mathlib.Core.Option.{Option, some, none}
use Rattle.rules.specs.declared.span.Span.{Span}
use Rattle.rules.specs.declared.violation.Violation.{Violation}
use Rattle.rules.specs.declared.answer.AnswerValues.{AnswerValues}
use Rattle.rules.specs.Words.{same_bytes}
use Rattle.rules.specs.Refusals.{Fault, refusal}
use Rattle.rules.specs.Rule.{Found, violation}
use Rattle.rules.specs.Answer.{answer, found_in, full_list, total_of, errors_of}
use Rattle.rules.specs.Buffer.{encode}
use Rattle.rules.specs.Table.{told}

-- what is expected of a sheet and a names text: the answer's numbers, the list's bytes, and the rules by which it was found
unfoldable pub rules_of : List ℕ → List ℕ → List ℕ
rules_of sheet names = elim (refusal sheet names) [ some f ↦ [] | none ↦ map (λ f. f.rule) (found_in sheet names) ]

unfoldable pub values_test : AnswerValues → List ℕ → Bool
values_test a values = same_bytes (a.number ∷ a.index ∷ a.total ∷ a.errors ∷ []) values

unfoldable pub expected : List ℕ → List ℕ → List ℕ → List ℕ → List ℕ → Bool
expected sheet names values list rules =
    values_test (answer sheet names) values
    && same_bytes (flat_map encode (told sheet names)) list
    && same_bytes (rules_of sheet names) rules

-- the same, with the refusal and the list computed once
unfoldable pub found_test : List (Found Span) → List ℕ → List ℕ → List ℕ → Bool
found_test found values list rules =
    let vs : List Violation = map violation found in
    values_test (record { number = 0; index = 0; total = total_of vs; errors = errors_of vs }) values
    && same_bytes (flat_map encode vs) list
    && same_bytes (map (λ f. f.rule) found) rules

unfoldable pub case_test : List ℕ → List ℕ → List ℕ → List ℕ → List ℕ → Bool
case_test sheet names values list rules =
    elim (refusal sheet names) [
      | some f ↦ values_test (record { number = f.number; index = f.index; total = 0; errors = 0 }) values
        && same_bytes (flat_map encode []) list
        && same_bytes [] rules
      | none ↦ found_test (found_in sheet names) values list rules
    ]

by-refusal :
    (sheet names values list rules : List ℕ)
    → (r : Option Fault)
    → refusal sheet names ≡ r
    → expected sheet names values list rules ≡ case_test sheet names values list rules
unfolding expected rules_of case_test found_test answer told full_list
by-refusal sheet names values list rules none h = rw (h, answer, told, rules_of, case_test) refl
by-refusal sheet names values list rules (some f) h = rw (h, answer, told, rules_of, case_test) refl

pub test-expected : (sheet names values list rules : List ℕ) → expected sheet names values list rules ≡ case_test sheet names values list rules
test-expected sheet names values list rules = by-refusal sheet names values list rules (refusal sheet names) refl
";

const USES: &str = "\
use mathlib.Core.Path.{◌≡◌, refl}
use mathlib.Core.Bool.{true}
use mathlib.Core.List.{[], ◌∷◌, flatten}
use Rattle.rules.specs.Words.{bytes}
use Rattle.rules.proofs.Computed.{computed}
use Rattle.cases.proofs.Test.{values_test, found_test, case_test}
";

/// The proofs of the rules that stand beside the cases.
const BESIDE: [&str; 2] = ["Computed", "Table"];

fn lay_out(rules: &Path, cases: &[(usize, &Case)], out: &Path) -> Result<()> {
    if out.exists() {
        fs::remove_dir_all(out)?;
    }
    let ours = out.join("crates/rules");
    for part in ["src", "specs"] {
        copy(&rules.join(part), &ours.join(part))?;
    }
    fs::create_dir_all(ours.join("proofs"))?;
    for module in BESIDE {
        let file = format!("proofs/{module}.antt");
        fs::copy(rules.join(&file), ours.join(&file))?;
    }
    fs::write(ours.join("proofs/Lib.antt"), declared(BESIDE))?;

    let proofs = out.join("crates/cases/proofs");
    fs::create_dir_all(out.join("crates/cases/src"))?;
    fs::create_dir_all(&proofs)?;
    fs::write(out.join("crates.txt"), "rules:\ncases: rules\n")?;
    fs::write(out.join("crates/cases/src/lib.rt"), "// Cases that the definitions are computed on.\n")?;
    fs::write(proofs.join("Test.antt"), TEST)?;
    let mut modules = vec!["Test".to_string()];
    for (number, chunk) in cases.chunks(PER_FILE).enumerate() {
        let statements = chunk.iter().map(|(i, case)| statement(*i, case));
        let file = USES.to_string() + &statements.collect::<String>();
        fs::write(proofs.join(format!("Cases{number}.antt")), file)?;
        modules.push(format!("Cases{number}"));
    }
    fs::write(proofs.join("Lib.antt"), declared(modules))
}

/// The text of a `Lib.antt` that declares these modules.
fn declared<T: std::fmt::Display>(modules: impl IntoIterator<Item = T>) -> String {
    modules.into_iter().map(|module| format!("pub mod {module}\n")).collect()
}

/// The statement that a case passes the test.
fn statement(i: usize, case: &Case) -> String {
    let (sheet, names) = (bytes(&case.sheet), bytes(&case.names));
    let expected = [list(&case.values), bytes(&case.list), list(&case.rules)].join(" ");
    format!(
        "\ncase-{i} : case_test {sheet} {names} {expected} ≡ true\n\
         unfolding computed case_test found_test values_test\n\
         case-{i} = refl\n"
    )
}

/// Bytes as little-endian numbers of 32 bytes each, which are read far more quickly than a list.
fn bytes(bytes: &[u8]) -> String {
    let number = |part: &[u8]| {
        let hex: String = part.iter().rev().map(|byte| format!("{byte:02x}")).collect();
        format!("bytes {} 0x{hex} ∷ ", part.len())
    };
    format!("(flatten ({}[]))", bytes.chunks(32).map(number).collect::<String>())
}

fn list<T: ToString>(numbers: &[T]) -> String {
    let items: String = numbers.iter().map(|number| number.to_string() + " ∷ ").collect();
    format!("({items}[])")
}

fn copy(from: &Path, to: &Path) -> Result<()> {
    fs::create_dir_all(to)?;
    for entry in fs::read_dir(from)? {
        let entry = entry?;
        let target = to.join(entry.file_name());
        if entry.file_type()?.is_dir() {
            copy(&entry.path(), &target)?;
        } else {
            fs::copy(entry.path(), target)?;
        }
    }
    Ok(())
}

// ---------------------------------------------------------------------------
// Checking
// ---------------------------------------------------------------------------

/// What the checker says of a crate of the repository, after those that it stands on.
struct Verdict {
    log: String,
    is_proved: bool,
}

fn check(repository: &Path, name: &str) -> Result<Verdict> {
    let folder = repository.join("crates").join(name);
    let output = Command::new("rt").arg("check").current_dir(folder).output()?;
    let mut log = String::from_utf8_lossy(&output.stdout).into_owned();
    log += &String::from_utf8_lossy(&output.stderr);
    Ok(Verdict { log, is_proved: output.status.success() })
}

/// The cases that the checker refused.
fn differing(log: &str) -> Vec<String> {
    let mut names: Vec<String> = log
        .lines()
        .filter_map(|line| line.split("error: `case-").nth(1))
        .filter_map(|rest| rest.split('`').next())
        .map(|number| format!("case-{number}"))
        .collect();
    names.dedup();
    names
}

// ---------------------------------------------------------------------------
// Edits
// ---------------------------------------------------------------------------

struct Edit {
    label: String,
    changes: Vec<Change>,
}

#[derive(Default)]
struct Change {
    file: String,
    old: String,
    new: String,
}

/// What catches a mistake.
#[derive(Clone, Copy)]
enum By {
    Table,
    Run,
    Theorem,
    Nothing,
}

/// Tries each edit: the proved table must refuse it, or a case must differ, or a theorem must refuse it.
fn try_edits(rules: &Path, cases: &str, out: &Path, edits: &str, few: &str) -> Result<bool> {
    let cases = read(&fs::read(cases)?)?;
    let mut all: Vec<(usize, &Case)> = cases.iter().enumerate().collect();
    let few: Vec<(usize, &Case)> = read_few(&fs::read_to_string(few)?, &all)?;
    all.sort_by_key(|(_, case)| case.sheet.len() + case.names.len());
    let edits = read_edits(&fs::read_to_string(edits)?)?;
    let mut counts = [0; 4];
    for edit in &edits {
        let (by, at) = try_edit(rules, &few, &all, out, edit)?;
        counts[by as usize] += 1;
        println!("{}: {at}", edit.label);
    }
    println!(
        "{} edits: {} caught by the table, {} by the run, {} by a theorem, {} not caught",
        edits.len(),
        counts[By::Table as usize],
        counts[By::Run as usize],
        counts[By::Theorem as usize],
        counts[By::Nothing as usize]
    );
    Ok(counts[By::Nothing as usize] == 0)
}

/// The cases whose numbers stand in the text, one to a line.
fn read_few<'c>(text: &str, all: &[(usize, &'c Case)]) -> Result<Vec<(usize, &'c Case)>> {
    let wrong = || Error::new(ErrorKind::InvalidData, "no file of numbers of cases");
    text.lines()
        .map(|line| line.parse().ok().and_then(|i: usize| all.get(i).copied()).ok_or_else(wrong))
        .collect()
}

/// What catches an edit: the table or one of few cases, else a theorem, else one of all cases, the short ones first.
fn try_edit(
    rules: &Path,
    few: &[(usize, &Case)],
    all: &[(usize, &Case)],
    out: &Path,
    edit: &Edit,
) -> Result<(By, String)> {
    let ours = out.join("crates/rules");
    lay_out(rules, few, out)?;
    apply(&ours, edit)?;
    let Verdict { log, is_proved } = check(out, "cases")?;
    if let Some(case) = differing(&log).first() {
        return Ok((By::Run, format!("caught by the run at {case}")));
    }
    if !is_proved {
        let at = first_refusal(&log);
        if at != "table-passes" {
            let message = format!("{}: not refused by the table but at {at}\n{log}", edit.label);
            return Err(Error::new(ErrorKind::InvalidInput, message));
        }
        return Ok((By::Table, format!("caught by the table at {at}")));
    }
    copy(&rules.join("proofs"), &ours.join("proofs"))?;
    let Verdict { log, is_proved } = check(out, "rules")?;
    if !is_proved {
        return Ok((By::Theorem, format!("caught by a theorem at {}", first_refusal(&log))));
    }
    for part in all.chunks(TOGETHER) {
        lay_out(rules, part, out)?;
        apply(&ours, edit)?;
        if let Some(case) = differing(&check(out, "cases")?.log).first() {
            return Ok((By::Run, format!("caught by the run at {case}")));
        }
    }
    Ok((By::Nothing, "NOT CAUGHT".to_string()))
}

/// An edit is a line with its label, then one or more changes: `file:`, `old:` and `new:` lines.
fn read_edits(text: &str) -> Result<Vec<Edit>> {
    let mut edits: Vec<Edit> = Vec::new();
    let mut change = Change::default();
    for line in text.lines().filter(|line| !line.is_empty() && !line.starts_with('#')) {
        if let Some(file) = line.strip_prefix("file: ") {
            change.file = file.to_string();
        } else if let Some(old) = line.strip_prefix("old: ") {
            change.old = old.to_string();
        } else if let Some(new) = line.strip_prefix("new: ") {
            change.new = new.to_string();
            let wrong = || Error::new(ErrorKind::InvalidData, "a change before any label");
            edits.last_mut().ok_or_else(wrong)?.changes.push(std::mem::take(&mut change));
        } else {
            edits.push(Edit { label: line.to_string(), changes: Vec::new() });
        }
    }
    Ok(edits)
}

fn apply(rules: &Path, edit: &Edit) -> Result<()> {
    for Change { file, old, new } in &edit.changes {
        let path = rules.join(file);
        let text = fs::read_to_string(&path)?;
        if old.is_empty() || text.matches(old).count() != 1 {
            let message = format!("{}: `{old}` does not stand once in {file}", edit.label);
            return Err(Error::new(ErrorKind::InvalidInput, message));
        }
        fs::write(path, text.replace(old, new))?;
    }
    Ok(())
}

/// The theorem at which the first error stands.
fn first_refusal(log: &str) -> String {
    log.lines()
        .find_map(|line| line.split(": error: `").nth(1))
        .and_then(|rest| rest.split('`').next())
        .unwrap_or("the checker")
        .to_string()
}
