//! The comparison of the second reading with the Rust. `compare help` tells the commands.

mod against;
mod cases_file;
mod coverage;
mod draft;
mod format;
mod generate;
mod items;
mod laws;
#[cfg(library)]
mod library;
mod random;
mod reading;
mod reading_test;
mod record;
mod run;
mod select;
mod self_test;

use generate::{small, Case};
use reading::{answer, printed, Answer};
use run::{Difference, Report, Source};
use std::io::{BufWriter, Write};
use std::process::ExitCode;

const HELP: &str = "\
compare [run] [--cases N] [--seed S]   compares the small cases and N generated ones
                                       (1,000,000 of seed 1), and prints what was met
compare [run] [--cases N] [--seed S] --record FILE
                                       writes the compared ones of N generated cases with
                                       the oracle's lists instead, for `compare/mutate`
compare laws [--cases N] [--seed S]    tries demand 3 on the second reading (100,000 cases)
compare self-test                      spoils answers; fails unless every one is noticed
compare reading-test                   holds the second reading to hand-made sheets
compare show SHEET NAMES               both answers for one case, given as hex
compare cases [--cases N] [--seed S] [--small] --out FILE
                                       writes cases with their answers to a file
compare select [--cases N] [--seed S] --out FILE
                                       writes the numbers of few of those cases (5,000) that
                                       have, between them, what the many have
compare record --out FILE              writes the cases that the repository keeps, one of them
                                       spoiled, in the same form
";

const CASES: u64 = 1_000_000;
const LAW_CASES: u64 = 100_000;
const SELECT_CASES: u64 = 5_000;
const SEED: u64 = 1;

fn main() -> ExitCode {
    let mut arguments: Vec<String> = std::env::args().skip(1).collect();
    if arguments
        .first()
        .is_some_and(|first| first.starts_with("--"))
    {
        arguments.insert(0, "run".to_string());
    }
    let command = arguments.first().map_or("help", String::as_str);
    let rest = arguments.get(1..).unwrap_or(&[]);
    let done = match command {
        "run" => options(rest).and_then(|options| match &options.record {
            Some(path) => record_command(&options, path),
            None => Ok(run_command(&options)),
        }),
        "laws" => options(rest).map(|options| laws_command(&options)),
        "self-test" => Ok(self_test::notices()),
        "reading-test" => Ok(reading_test()),
        "show" => show(rest),
        "cases" => options(rest).and_then(|options| cases_command(&options)),
        "select" => options(rest).and_then(|options| select_command(&options)),
        "record" => options(rest).and_then(|options| recorded_command(&options)),
        #[cfg(library)]
        "library" => library::command(rest),
        _ => {
            print!("{HELP}");
            Ok(command == "help")
        }
    };
    match done {
        Ok(true) => ExitCode::SUCCESS,
        Ok(false) => ExitCode::FAILURE,
        Err(message) => {
            eprintln!("{message}");
            ExitCode::FAILURE
        }
    }
}

struct Options {
    /// `None` for the command's own count.
    cases: Option<u64>,
    seed: u64,
    small: bool,
    out: Option<String>,
    record: Option<String>,
}

fn options(arguments: &[String]) -> Result<Options, String> {
    let mut options = Options {
        cases: None,
        seed: SEED,
        small: false,
        out: None,
        record: None,
    };
    let mut rest = arguments.iter();
    while let Some(name) = rest.next() {
        if name == "--small" {
            options.small = true;
            continue;
        }
        let value = rest.next().ok_or(format!("{name} lacks a value"))?;
        match name.as_str() {
            "--cases" => options.cases = Some(number(value)?),
            "--seed" => options.seed = number(value)?,
            "--out" => options.out = Some(value.clone()),
            "--record" => options.record = Some(value.clone()),
            _ => return Err(format!("unknown option {name}\n{HELP}")),
        }
    }
    Ok(options)
}

fn number(text: &str) -> Result<u64, String> {
    text.replace(['_', ','], "")
        .parse()
        .map_err(|_| format!("{text} is no number"))
}

// ---------------------------------------------------------------------------
// run
// ---------------------------------------------------------------------------

/// True if there is no difference and, at the default count, nothing is lacking.
fn run_command(options: &Options) -> bool {
    let small = run::run(Source::Small, small::count(), |_| {});
    println!("-- every small body");
    println!("cases {}", small.coverage.cases);
    println!("accepted {}", small.coverage.accepted);
    println!("compared {}", small.coverage.compared);
    let cases = options.cases.unwrap_or(CASES);
    let report = run::run(Source::Seed(options.seed), cases, |_| {});
    println!("-- generated, seed {}", options.seed);
    report.coverage.print();
    let lacks = if cases >= CASES {
        report.coverage.lacks()
    } else {
        Vec::new()
    };
    lacks.iter().for_each(|lack| println!("too few: {lack}"));
    print_first(&small, "small");
    print_first(&report, "generated");
    let differences = small.differences + report.differences;
    println!("{differences} differences, {} counts too low", lacks.len());
    differences == 0 && lacks.is_empty()
}

fn print_first(report: &Report, source: &str) {
    let Some(Difference {
        i,
        case,
        answer,
        message,
    }) = &report.first
    else {
        return;
    };
    println!(
        "-- first difference: {source} case {i}, family {}",
        case.family
    );
    println!("{message}");
    print_answers(&case.sheet, &case.names, answer);
}

fn print_answers(sheet: &[u8], names: &[u8], ours: &Answer) {
    println!("sheet {}\nnames {}", hex(sheet), hex(names));
    println!("-- reading");
    for v in &ours.list {
        println!(
            "rule {} at record {}: {} {} {} {}",
            v.rule, v.record, v.class, v.severity, v.offset, v.len
        );
    }
    print!("{}", printed(ours));
    if !is_asked(sheet, names, ours) {
        println!("-- oracle: not asked (refused, or a name is not UTF-8)");
        return;
    }
    for (name, list) in [
        ("plain", against::plain(sheet, names)),
        ("lean", against::lean(sheet, names)),
    ] {
        println!("-- oracle {name}");
        match list {
            Ok(list) => list
                .iter()
                .for_each(|(c, s, o, l)| println!("{c} {s} {o} {l}")),
            Err(message) => println!("{message}"),
        }
    }
}

/// Whether the Rust decides a list.
fn is_asked(sheet: &[u8], names: &[u8], ours: &Answer) -> bool {
    matches!(
        against::decided_by_the_rust(sheet, names, ours),
        against::Decided::List(_)
    )
}

// ---------------------------------------------------------------------------
// the other commands
// ---------------------------------------------------------------------------

fn laws_command(options: &Options) -> bool {
    laws::try_all(options.seed, options.cases.unwrap_or(LAW_CASES), &answer).print()
}

fn reading_test() -> bool {
    let (passed, failed) = reading_test::run();
    println!("{passed} passed, {failed} failed");
    failed == 0
}

fn show(arguments: &[String]) -> Result<bool, String> {
    let empty = String::new();
    let sheet = bytes(arguments.first().unwrap_or(&empty))?;
    let names = bytes(arguments.get(1).unwrap_or(&empty))?;
    let ours = answer(&sheet, &names);
    print_answers(&sheet, &names, &ours);
    match against::against_oracles(&sheet, &names, &ours) {
        against::Outcome::Different(message) => {
            println!("{message}");
            Ok(false)
        }
        _ => Ok(true),
    }
}

/// Writes the cases that the oracle can be asked about, with its lists, in its own form.
fn record_command(options: &Options, path: &str) -> Result<bool, String> {
    let told = |error: std::io::Error| format!("{path}: {error}");
    let asked = (0..options.cases.unwrap_or(CASES)).filter_map(|i| {
        let Case { sheet, names, .. } = generate::case(options.seed, i);
        let expected = if is_asked(&sheet, &names, &answer(&sheet, &names)) {
            oracle_plain::run(&sheet, &names).ok()?
        } else {
            return None;
        };
        Some(oracle_plain::cases::Case {
            sheet,
            names,
            expected,
        })
    });
    oracle_plain::cases::write_cases(std::path::Path::new(path), asked).map_err(told)?;
    Ok(true)
}

fn cases_command(options: &Options) -> Result<bool, String> {
    let path = options.out.as_ref().ok_or("cases needs --out FILE")?;
    let told = |error: std::io::Error| format!("{path}: {error}");
    let small = if options.small { small::count() } else { 0 };
    let cases = options.cases.unwrap_or(CASES);
    let count = small + cases;
    let generated = (0..cases).map(|i| generate::case(options.seed, i));
    let mut out = BufWriter::new(std::fs::File::create(path).map_err(told)?);
    cases_file::write_start(&mut out, count).map_err(told)?;
    for case in small::all().take(small as usize).chain(generated) {
        let answer = answer(&case.sheet, &case.names);
        cases_file::write_case(&mut out, &case, &answer).map_err(told)?;
    }
    out.flush().map_err(told)?;
    println!("{count} cases written");
    Ok(true)
}

/// Writes the numbers of the chosen cases, one to a line.
fn select_command(options: &Options) -> Result<bool, String> {
    let path = options.out.as_ref().ok_or("select needs --out FILE")?;
    let cases = options.cases.unwrap_or(SELECT_CASES);
    let chosen = select::selection(options.seed, cases);
    let lines: String = chosen.iter().map(|i| format!("{i}\n")).collect();
    std::fs::write(path, lines).map_err(|error| format!("{path}: {error}"))?;
    println!("{} cases chosen", chosen.len());
    Ok(true)
}

/// Writes the recorded answers, if they agree with the oracles and nothing is lacking.
fn recorded_command(options: &Options) -> Result<bool, String> {
    let path = options.out.as_ref().ok_or("record needs --out FILE")?;
    let told = |error: std::io::Error| format!("{path}: {error}");
    let record::Selection { cases, spoiled } = record::selection()?;
    let mut out = BufWriter::new(std::fs::File::create(path).map_err(told)?);
    cases_file::write_start(&mut out, cases.len() as u64).map_err(told)?;
    for record::Recorded { case, answer } in &cases {
        cases_file::write_case(&mut out, case, answer).map_err(told)?;
    }
    out.flush().map_err(told)?;
    println!("{} cases written, case {spoiled} is spoiled", cases.len());
    Ok(true)
}

fn hex(bytes: &[u8]) -> String {
    bytes.iter().map(|byte| format!("{byte:02x}")).collect()
}

fn bytes(hex: &str) -> Result<Vec<u8>, String> {
    if !hex.is_ascii() || hex.len() % 2 != 0 {
        return Err("hex digits come in pairs".to_string());
    }
    let pairs = (0..hex.len()).step_by(2).map(|at| &hex[at..at + 2]);
    pairs
        .map(|pair| u8::from_str_radix(pair, 16).map_err(|e| format!("{pair}: {e}")))
        .collect()
}
