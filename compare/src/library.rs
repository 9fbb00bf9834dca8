//! The built library against the second reading and the oracles. `compare/library` builds
//! this part of the program, which links `target/staticlib/libdilomevay.a`.

mod boundaries;
mod chosen;
mod entry;
mod judge;
mod odd;
mod rules;
mod self_test;

use crate::coverage::Coverage;
use crate::generate::{self, small, Case};
use crate::laws;
use crate::reading::{class_and_severity, RULES};
use crate::run::{run_by, Report};
use crate::{options, print_first, Options, CASES, LAW_CASES};
use entry::Room;
use judge::{Calls, Judge, Left, Spoil, BUFFERS};
use rules::Met;
use self_test::{Byte, TOUCH_AFTER, TOUCH_BEFORE};
use std::cell::RefCell;
use std::collections::BTreeSet;
use std::ffi::c_int;
use std::ops::RangeInclusive;
use std::sync::Mutex;

const HELP: &str = "\
compare/library [SRC] [--cases N] [--seed S]             the small cases, odd addresses and lengths,
                                                         and N generated cases (1,000,000 of seed 1)
compare/library [SRC] --spoil [--cases N] [--seed S]     the same with one byte of one answer
                                                         spoiled: it must fail and name the case
compare/library [SRC] --single [--cases N] [--seed S]    messages of one field (200,000)
compare/library [SRC] --refusals [--cases N] [--seed S]  families that are refused, and every
                                                         limit (200,000)
compare/library [SRC] --laws [--cases N] [--seed S]      demand 3 tried on the library (100,000)
compare/library [SRC] --self-test                        spoils every byte of the answers; each
                                                         must be noticed
";

const CHOSEN_CASES: u64 = 200_000;
const TOUCHED: &str = "the library touched memory that it was not lent";

/// True if nothing differs and nothing is lacking.
pub fn command(arguments: &[String]) -> Result<bool, String> {
    catch_touching();
    let option = arguments.first().map_or("", String::as_str);
    let rest = || options(&arguments[1..]);
    match option {
        "--single" => rest().map(|options| single(&options)),
        "--refusals" => rest().map(|options| refusals(&options)),
        "--laws" => rest().map(|options| try_laws(&options)),
        "--spoil" => rest().map(|options| all(&options, true)),
        "--self-test" => Ok(self_test::notices()),
        TOUCH_AFTER | TOUCH_BEFORE => {
            self_test::touch(option == TOUCH_AFTER);
            Ok(true)
        }
        "--help" => {
            print!("{HELP}");
            Ok(true)
        }
        _ => options(arguments).map(|options| all(&options, false)),
    }
}

// ---------------------------------------------------------------------------
// Memory that was not lent
// ---------------------------------------------------------------------------

extern "C" {
    fn signal(number: c_int, handler: extern "C" fn(c_int)) -> usize;
}

const BUS_ERROR: c_int = 7;
const SEGMENTATION_FAULT: c_int = 11;

/// Names the case if a call touches what it was not lent.
fn catch_touching() {
    for number in [BUS_ERROR, SEGMENTATION_FAULT] {
        unsafe { signal(number, touched) };
    }
}

extern "C" fn touched(_: c_int) {
    println!("{TOUCHED}");
    judge::print_case_now();
    std::process::exit(1);
}

// ---------------------------------------------------------------------------
// The comparisons
// ---------------------------------------------------------------------------

/// Counts of a whole command.
#[derive(Default)]
struct Sum {
    report: Report,
    calls: Calls,
    /// What is lacking, in words.
    lacks: Vec<String>,
}

impl Sum {
    /// Compares cases, and prints the first that differs.
    fn compare(&mut self, what: &str, count: u64, case: impl Fn(u64) -> Case + Sync, spoil: Spoil) {
        let judge = || {
            let mut judge = Judge::new(&self.calls, spoil);
            move |i, case: &_| judge.judge(i, case)
        };
        let report = run_by(case, count, judge);
        let Coverage {
            cases, compared, ..
        } = report.coverage;
        println!("-- {what}: {cases} cases, {compared} of them asked of the oracles");
        print_first(&report, what);
        self.report.add(report);
    }

    fn need(&mut self, what: String, count: u64) {
        if count == 0 {
            self.lacks.push(format!("{what}: 0"));
        }
    }

    fn need_refusals(&mut self) {
        (1..=9).for_each(|number| self.need(format!("refusal {number}"), self.refused(number)));
    }

    /// How many cases were refused by a row.
    fn refused(&self, number: u32) -> u64 {
        let refusals = self.report.coverage.refusals.iter();
        let of_number = refusals.filter(|(key, _)| key.0 == number);
        of_number.map(|(_, count)| count).sum()
    }

    /// Among the compared cases each of these rules must be broken, with its class.
    fn need_rules(&mut self, rules: RangeInclusive<u16>) {
        for rule in rules {
            let coverage = &self.report.coverage;
            let class = class_and_severity(rule);
            let of_rule = coverage.rules.get(&rule).copied().unwrap_or(0);
            let of_class = coverage.classes.get(&class).copied().unwrap_or(0);
            self.need(format!("rule {rule}"), of_rule);
            self.need(format!("class {} severity {}", class.0, class.1), of_class);
        }
    }

    /// Any 1,000 generated cases have every family.
    fn need_families(&mut self, seed: u64) {
        let all: BTreeSet<_> = (0..1000).map(|i| generate::case(seed, i).family).collect();
        for family in all {
            let met = self.report.coverage.families.get(family);
            self.need(format!("family {family}"), met.map_or(0, |counts| counts.0));
        }
    }

    /// Counts the cases that meet a condition of docs/DIFFERENCES.md.
    fn recorded_differences(&mut self) {
        let not_utf8 = self.report.coverage.accepted - self.report.coverage.compared;
        let conditions = [
            ("a newtype's chain does not end, refusal 9", self.refused(9)),
            ("deeper than 64, refusal 7", self.refused(7)),
            (
                "a sheet too long or of no whole records, refusal 1",
                self.refused(1),
            ),
            ("a names text too long, refusal 2", self.refused(2)),
            ("a second declaration, refusal 8", self.refused(8)),
            ("an ordinal over 4294967295, refusal 5", self.refused(5)),
            ("a name that is not UTF-8, accepted", not_utf8),
        ];
        println!("-- conditions of docs/DIFFERENCES.md, on which the oracles are not asked");
        for (condition, count) in conditions {
            println!("{condition}: {count}");
            self.need(condition.to_string(), count);
        }
    }

    fn need_buffers(&mut self) {
        println!("-- calls by the list's length");
        let counts = BUFFERS.map(|buffer| {
            let count = self.calls.of(buffer);
            self.need(format!("list {buffer:?}"), count);
            format!("{buffer:?} {count}").to_lowercase()
        });
        println!("{}", counts.join(", "));
    }

    /// Prints the counts and the last line; true if nothing differs and nothing is lacking.
    fn end(&mut self) -> bool {
        println!("-- all of them");
        self.report.coverage.print();
        self.need_buffers();
        self.lacks
            .iter()
            .for_each(|lack| println!("too few: {lack}"));
        println!(
            "{} cases, {} calls, {} differences, {} counts too low",
            grouped(self.report.coverage.cases),
            grouped(self.calls.sum()),
            grouped(self.report.differences),
            self.lacks.len()
        );
        self.report.differences == 0 && self.lacks.is_empty()
    }
}

const SOUND: Spoil = &|_, _| {};

/// The small cases, odd calls, and generated cases, of which one is spoiled if asked for.
fn all(options: &Options, is_spoiled: bool) -> bool {
    let mut sum = Sum::default();
    let odd = odd::try_all(options.seed);
    println!("-- odd addresses and lengths: {} calls", odd.calls);
    odd.wrong
        .iter()
        .for_each(|what| println!("differs: {what}"));
    sum.report.differences += odd.wrong.len() as u64;
    sum.compare("every small body", small::count(), small::case, SOUND);
    let cases = options.cases.unwrap_or(CASES);
    let seed = options.seed;
    let one = |i: u64, left: &mut Left| {
        if i == cases / 2 {
            self_test::spoil(Byte::Answer(12), left);
        }
    };
    let spoil: Spoil = if is_spoiled { &one } else { SOUND };
    let what = format!("generated, seed {seed}");
    sum.compare(&what, cases, |i| generate::case(seed, i), spoil);
    sum.need_refusals();
    sum.need_rules(RULES);
    sum.need_families(seed);
    if cases >= CASES {
        sum.lacks.extend(sum.report.coverage.lacks());
    }
    sum.recorded_differences();
    sum.end()
}

/// Messages of one field: rules 6 to 30.
fn single(options: &Options) -> bool {
    let mut sum = Sum::default();
    let small = chosen::small_with_one_field();
    let met: Mutex<Met> = Mutex::default();
    let noted = |case: Case| {
        met.lock().unwrap().note(&case);
        case
    };
    let count = small.len() as u64;
    let small_case = |i: u64| noted(small::case(small[i as usize]));
    sum.compare("small messages of one field", count, small_case, SOUND);
    let (seed, cases) = (options.seed, options.cases.unwrap_or(CHOSEN_CASES));
    let what = format!("one field of generated sheets, seed {seed}");
    sum.compare(&what, cases, |i| noted(chosen::one_field(seed, i)), SOUND);
    sum.need_rules(6..=30);
    sum.lacks.extend(met.into_inner().unwrap().print());
    sum.end()
}

/// Families that are refused, and every limit.
fn refusals(options: &Options) -> bool {
    let mut sum = Sum::default();
    sum.compare("every limit", boundaries::count(), boundaries::case, SOUND);
    let small = chosen::small_refused();
    let count = small.len() as u64;
    let small_case = |i: u64| small::case(small[i as usize]);
    sum.compare("small sheets by their kinds", count, small_case, SOUND);
    let (seed, cases) = (options.seed, options.cases.unwrap_or(CHOSEN_CASES));
    let what = format!("generated families that are refused, seed {seed}");
    sum.compare(&what, cases, |i| chosen::refused(seed, i), SOUND);
    sum.need_refusals();
    sum.end()
}

/// Demand 3 and its like. True if each law was tried and none failed.
fn try_laws(options: &Options) -> bool {
    let rooms = RefCell::new([(); 3].map(|()| Room::new(1 << 16)));
    let answer = |sheet: &[u8], names: &[u8]| {
        let [sheets, texts, lists] = &mut *rooms.borrow_mut();
        let sheet = sheets.put(sheet, 0);
        let names = texts.put(names, 0);
        judge::library_answer(lists, sheet, names)
    };
    laws::try_all(options.seed, options.cases.unwrap_or(LAW_CASES), &answer).print()
}

/// A number with a comma before every three digits.
fn grouped(number: u64) -> String {
    let digits = number.to_string();
    let mut text = String::new();
    for (at, digit) in digits.chars().enumerate() {
        if at > 0 && (digits.len() - at).is_multiple_of(3) {
            text.push(',');
        }
        text.push(digit);
    }
    text
}
