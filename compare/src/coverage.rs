//! What a run has met: counts of cases, rules, classes, kinds and refusals.

use crate::format::{kind, subs, RECORD};
use crate::generate::Case;
use crate::reading::{class_and_severity, Answer, RULES};
use std::collections::BTreeMap;

/// Counts are of sheets, not of occurrences within one.
#[derive(Default)]
pub struct Coverage {
    pub cases: u64,
    pub accepted: u64,
    /// Accepted with UTF-8 names: the ones that the oracle was asked about.
    pub compared: u64,
    pub violations: u64,
    pub families: BTreeMap<&'static str, (u64, u64)>,
    /// By rule, among the compared.
    pub rules: BTreeMap<u16, u64>,
    /// By class and severity, among the compared.
    pub classes: BTreeMap<(u16, u8), u64>,
    /// By kind and sub (0 for a kind without subs), among the compared.
    pub kinds: BTreeMap<(u8, u8), u64>,
    pub refusals: BTreeMap<(u32, Place), u64>,
    /// Compared sheets of more than 900 records.
    pub full: u64,
}

/// Where in its sheet a refusal's index lies.
#[derive(Debug, Clone, Copy, PartialEq, Eq, PartialOrd, Ord)]
pub enum Place {
    First,
    Middle,
    Last,
    End,
}

/// What a run of the default length must reach.
const SHEETS_EACH: u64 = 1000;
const FULL_SHEETS: u64 = 1000;
const FULL: usize = 900;
const ACCEPTED_PERCENT: u64 = 40;

impl Coverage {
    /// Counts a case; `compared` if the oracle was asked about it.
    pub fn count(&mut self, case: &Case, answer: &Answer, compared: bool) {
        self.cases += 1;
        let family = self.families.entry(case.family).or_default();
        family.0 += 1;
        if answer.number != 0 {
            let place = place(answer.index as usize, case.sheet.len() / RECORD);
            *self.refusals.entry((answer.number, place)).or_default() += 1;
            return;
        }
        self.accepted += 1;
        family.1 += 1;
        if compared {
            self.compared += 1;
            self.count_contents(case, answer);
        }
    }

    fn count_contents(&mut self, case: &Case, answer: &Answer) {
        self.violations += answer.list.len() as u64;
        self.full += u64::from(case.sheet.len() / RECORD > FULL);
        count_each(&mut self.rules, answer.list.iter().map(|v| v.rule));
        let classes = answer.list.iter().map(|v| (v.class, v.severity));
        count_each(&mut self.classes, classes);
        let mut kinds = [[false; 14]; 61];
        for record in case.sheet.chunks_exact(RECORD) {
            let sub = if subs(record[0]) == Some(0) {
                0
            } else {
                record[1]
            };
            kinds[usize::from(record[0])][usize::from(sub)] = true;
        }
        for (kind, sub) in kinds_and_subs() {
            if kinds[usize::from(kind)][usize::from(sub)] {
                *self.kinds.entry((kind, sub)).or_default() += 1;
            }
        }
    }

    pub fn add(&mut self, other: Coverage) {
        self.cases += other.cases;
        self.accepted += other.accepted;
        self.compared += other.compared;
        self.violations += other.violations;
        self.full += other.full;
        for (family, (cases, accepted)) in other.families {
            let sum = self.families.entry(family).or_default();
            *sum = (sum.0 + cases, sum.1 + accepted);
        }
        add_each(&mut self.rules, other.rules);
        add_each(&mut self.classes, other.classes);
        add_each(&mut self.kinds, other.kinds);
        add_each(&mut self.refusals, other.refusals);
    }

    /// What a run of the default length lacks, in words.
    pub fn lacks(&self) -> Vec<String> {
        let mut lacks = Vec::new();
        let mut need = |what: String, count: u64, least: u64| {
            if count < least {
                lacks.push(format!("{what}: {count} of {least}"));
            }
        };
        need(
            "accepted".into(),
            self.accepted,
            (self.cases * ACCEPTED_PERCENT).div_ceil(100),
        );
        need(
            "compared sheets over 900 records".into(),
            self.full,
            FULL_SHEETS,
        );
        for rule in RULES {
            need(format!("rule {rule}"), get(&self.rules, rule), SHEETS_EACH);
            let class = class_and_severity(rule);
            need(
                format!("class {} severity {}", class.0, class.1),
                get(&self.classes, class),
                SHEETS_EACH,
            );
        }
        for key in kinds_and_subs() {
            need(
                format!("kind {} sub {}", key.0, key.1),
                get(&self.kinds, key),
                SHEETS_EACH,
            );
        }
        for key in possible_refusals() {
            need(
                format!("refusal {} at {:?}", key.0, key.1),
                get(&self.refusals, key),
                100,
            );
        }
        lacks
    }

    pub fn print(&self) {
        println!("cases {}", self.cases);
        let percent = 100.0 * self.accepted as f64 / self.cases.max(1) as f64;
        println!("accepted {} ({percent:.1} %)", self.accepted);
        println!(
            "compared {} with {} violations",
            self.compared, self.violations
        );
        println!("compared sheets over {FULL} records {}", self.full);
        println!("families (cases, accepted):");
        for (family, (cases, accepted)) in &self.families {
            println!("  {family}: {cases}, {accepted}");
        }
        println!("compared sheets with a violation by rule:");
        print_row(self.rules.iter().map(|(rule, n)| format!("{rule}: {n}")));
        println!("compared sheets with a violation of class and severity:");
        let letter = |severity: u8| if severity == 0 { 'E' } else { 'W' };
        print_row(
            self.classes
                .iter()
                .map(|((c, s), n)| format!("{c} {}: {n}", letter(*s))),
        );
        println!("compared sheets with a record of kind/sub:");
        print_row(self.kinds.iter().map(|((kind, sub), n)| match subs(*kind) {
            Some(0) => format!("{kind}: {n}"),
            _ => format!("{kind}/{sub}: {n}"),
        }));
        println!("refusals by number and place of the index:");
        for number in 1..10 {
            let of_number = self.refusals.iter().filter(|((n, _), _)| *n == number);
            let parts: Vec<String> = of_number
                .map(|((_, place), n)| format!("{place:?} {n}").to_lowercase())
                .collect();
            println!("  {number}: {}", parts.join(", "));
        }
    }
}

fn print_row(parts: impl Iterator<Item = String>) {
    for line in parts.collect::<Vec<String>>().chunks(10) {
        println!("  {}", line.join(", "));
    }
}

/// Counts each key once, however often it occurs.
fn count_each<K: Ord>(counts: &mut BTreeMap<K, u64>, keys: impl Iterator<Item = K>) {
    let mut keys: Vec<K> = keys.collect();
    keys.sort_unstable();
    keys.dedup();
    for key in keys {
        *counts.entry(key).or_default() += 1;
    }
}

fn add_each<K: Ord>(sum: &mut BTreeMap<K, u64>, other: BTreeMap<K, u64>) {
    for (key, count) in other {
        *sum.entry(key).or_default() += count;
    }
}

fn get<K: Ord>(counts: &BTreeMap<K, u64>, key: K) -> u64 {
    counts.get(&key).copied().unwrap_or(0)
}

pub fn place(index: usize, records: usize) -> Place {
    match index {
        0 => Place::First,
        _ if index >= records => Place::End,
        _ if index + 1 == records => Place::Last,
        _ => Place::Middle,
    }
}

fn kinds_and_subs() -> impl Iterator<Item = (u8, u8)> {
    kind::ALL.into_iter().flat_map(|kind| {
        let count = subs(kind).unwrap_or(0).max(1);
        (0..count).map(move |sub| (kind, sub))
    })
}

/// Depth 65 and a second declaration need records before them, and a ring's newtype
/// is followed by its type and the head.
fn possible_refusals() -> Vec<(u32, Place)> {
    let mut all = vec![(1, Place::First), (2, Place::First), (6, Place::End)];
    for number in 3..10 {
        if number != 7 && number != 8 {
            all.push((number, Place::First));
        }
        all.push((number, Place::Middle));
        if number != 9 {
            all.push((number, Place::Last));
        }
    }
    all
}
