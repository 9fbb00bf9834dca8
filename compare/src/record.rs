//! The cases that the repository keeps with their answers, for the replay.
//!
//! They are the same at every run: the boundary lengths and some full sheets of the
//! generator, then small cases at even distances, then generated cases one after another.

use crate::against::{against_oracles, Outcome};
use crate::coverage::Coverage;
use crate::format::{kind, subs, NAMES_LIMIT, RECORD};
use crate::generate::{self, small, Case};
use crate::reading::{answer, class_and_severity, Answer, RULES};

const SEED: u64 = 1;
/// How many generated cases are looked at for a boundary length or a full sheet.
const LOOKED_AT: u64 = 20_000;
const SHEET_LENGTHS: [usize; 7] = [0, 31, 32, 32736, 32767, 32768, 32800];
const NAMES_LENGTHS: [usize; 3] = [NAMES_LIMIT - 1, NAMES_LIMIT, NAMES_LIMIT + 1];
/// Full sheets, of more than 900 records.
const FULL_SHEETS: usize = 6;
const FULL: usize = 900;
const SMALL: u64 = 1000;
const GENERATED: usize = 2000;
/// The most bytes of a generated case.
const SHORT: usize = 2600;

/// A case with its answer.
pub struct Recorded {
    pub case: Case,
    pub answer: Answer,
}

/// What is written, and which case's answer is spoiled.
pub struct Selection {
    pub cases: Vec<Recorded>,
    pub spoiled: usize,
}

/// The cases to record with the second reading's answers, or what is wrong with them: an oracle
/// that differs on what the Rust decides, or something that none of them meets.
pub fn selection() -> Result<Selection, String> {
    let mut coverage = Coverage::default();
    let mut cases = Vec::new();
    for case in chosen() {
        let answer = answer(&case.sheet, &case.names);
        let outcome = against_oracles(&case.sheet, &case.names, &answer);
        if let Outcome::Different(message) = outcome {
            return Err(format!("case {}: {message}", cases.len()));
        }
        coverage.count(&case, &answer, !matches!(outcome, Outcome::NotAsked));
        cases.push(Recorded { case, answer });
    }
    let lacks = lacks(&coverage, &cases);
    if !lacks.is_empty() {
        return Err(format!("nothing recorded has: {}", lacks.join(", ")));
    }
    let spoiled = spoil(&mut cases)?;
    Ok(Selection { cases, spoiled })
}

/// Makes the errors one too few in the first case from the middle on that has any.
fn spoil(cases: &mut [Recorded]) -> Result<usize, String> {
    let middle = cases.len() / 2;
    let has_errors = |recorded: &Recorded| recorded.answer.errors > 0;
    let after = cases[middle..].iter().position(has_errors);
    let spoiled = middle + after.ok_or("no case with errors to spoil")?;
    cases[spoiled].answer.errors -= 1;
    Ok(spoiled)
}

fn chosen() -> impl Iterator<Item = Case> {
    let step = small::count() / SMALL;
    let short = |case: &Case| case.sheet.len() + case.names.len() <= SHORT;
    at_limits()
        .into_iter()
        .chain((0..SMALL).map(move |i| small::case(i * step)))
        .chain(generated().filter(short).take(GENERATED))
}

fn generated() -> impl Iterator<Item = Case> {
    (0..LOOKED_AT).map(|i| generate::case(SEED, i))
}

/// The first case of each boundary length, refused and accepted, then the full sheets.
fn at_limits() -> Vec<Case> {
    let mut limits = Vec::new();
    let mut met = Vec::new();
    let mut full = Vec::new();
    for case in generated() {
        let accepted = answer(&case.sheet, &case.names).number == 0;
        if case.family == "limits of length" {
            let before = met.len();
            for (of_sheet, len) in [(true, case.sheet.len()), (false, case.names.len())] {
                let key = (of_sheet, len, accepted);
                if is_limit(of_sheet, len) && !met.contains(&key) {
                    met.push(key);
                }
            }
            if met.len() > before {
                limits.push(case);
            }
        } else if accepted && case.sheet.len() > FULL * RECORD && full.len() < FULL_SHEETS {
            full.push(case);
        }
    }
    limits.append(&mut full);
    limits
}

fn is_limit(of_sheet: bool, len: usize) -> bool {
    if of_sheet {
        SHEET_LENGTHS.contains(&len)
    } else {
        NAMES_LENGTHS.contains(&len)
    }
}

/// What none of the cases has, in words.
fn lacks(coverage: &Coverage, cases: &[Recorded]) -> Vec<String> {
    let mut lacks = Vec::new();
    let mut need = |what: String, is_met: bool| {
        if !is_met {
            lacks.push(what);
        }
    };
    for number in 1..10 {
        let is_met = coverage.refusals.keys().any(|key| key.0 == number);
        need(format!("refusal {number}"), is_met);
    }
    for rule in RULES {
        need(format!("rule {rule}"), coverage.rules.contains_key(&rule));
        let class = class_and_severity(rule);
        need(
            format!("class {} severity {}", class.0, class.1),
            coverage.classes.contains_key(&class),
        );
    }
    for kind in kind::ALL {
        for sub in 0..subs(kind).unwrap_or(0).max(1) {
            let is_met = coverage.kinds.contains_key(&(kind, sub));
            need(format!("kind {kind} sub {sub}"), is_met);
        }
    }
    for len in SHEET_LENGTHS {
        let is_met = cases
            .iter()
            .any(|recorded| recorded.case.sheet.len() == len);
        need(format!("a sheet of {len} bytes"), is_met);
    }
    for len in NAMES_LENGTHS {
        let is_met = cases
            .iter()
            .any(|recorded| recorded.case.names.len() == len);
        need(format!("a names text of {len} bytes"), is_met);
    }
    need(
        format!("{FULL_SHEETS} compared sheets over {FULL} records"),
        coverage.full >= FULL_SHEETS as u64,
    );
    lacks
}
