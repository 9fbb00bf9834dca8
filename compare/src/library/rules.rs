//! What messages of one field have between them: each of rules 6 to 30 broken and kept, and
//! each type under each annotation and each condition.

use crate::format::{kind, sub, Record, RECORD};
use crate::generate::Case;
use crate::reading::answer;
use std::collections::BTreeMap;

#[derive(Default)]
pub struct Met {
    /// By rule: sheets that break it, and sheets that have what it is about and keep it.
    rules: BTreeMap<u16, (u64, u64)>,
    /// By the kind of the field's type and the annotation.
    annotations: BTreeMap<(u8, &'static str), u64>,
    /// By the kind of the field's type and of the condition or a part of it.
    conditions: BTreeMap<(u8, u8), u64>,
}

const RULES: std::ops::RangeInclusive<u16> = 6..=30;
const ANNOTATIONS: [&str; 7] = [
    "varint",
    "zigzag",
    "delta",
    "limit",
    "deprecated",
    "doc",
    "another",
];
const TYPES: std::ops::RangeInclusive<u8> = kind::PRIMITIVE..=kind::BITS;
const CONDITIONS: std::ops::RangeInclusive<u8> = kind::AND..=kind::LEN_RANGE;

impl Met {
    pub fn note(&mut self, case: &Case) {
        let field = Field::of(case);
        let broken: Vec<u16> = answer(&case.sheet, &case.names)
            .list
            .iter()
            .map(|violation| violation.rule)
            .collect();
        for rule in RULES {
            let (breaks, keeps) = self.rules.entry(rule).or_default();
            if broken.contains(&rule) {
                *breaks += 1;
            } else if field.concerns(rule) {
                *keeps += 1;
            }
        }
        let Some(ty) = field.find(|record| TYPES.contains(&record.kind)) else {
            return;
        };
        for word in ANNOTATIONS.into_iter().filter(|word| field.has(word)) {
            *self.annotations.entry((ty, word)).or_default() += 1;
        }
        for kind in CONDITIONS.filter(|&kind| field.is_there(kind, |_| true)) {
            *self.conditions.entry((ty, kind)).or_default() += 1;
        }
    }

    /// Prints the counts, and returns what is zero in words.
    pub fn print(&self) -> Vec<String> {
        let mut zeros = Vec::new();
        println!("-- rules, by sheets that break it and sheets that keep it");
        let mut parts = Vec::new();
        for rule in RULES {
            let (breaks, keeps) = self.rules.get(&rule).copied().unwrap_or_default();
            parts.push(format!("{rule}: {breaks} {keeps}"));
            if breaks == 0 || keeps == 0 {
                zeros.push(format!("rule {rule} was not both broken and kept"));
            }
        }
        parts
            .chunks(5)
            .for_each(|line| println!("  {}", line.join(", ")));
        let pairs = |ty| ANNOTATIONS.map(|word| (ty, word));
        let fewest = fewest(&self.annotations, TYPES.flat_map(pairs), &mut zeros);
        println!("-- each type under each annotation: at least {fewest} sheets");
        let pairs = |ty| CONDITIONS.map(move |kind| (ty, kind));
        let fewest = self::fewest(&self.conditions, TYPES.flat_map(pairs), &mut zeros);
        println!("-- each type under each condition: at least {fewest} sheets");
        zeros
    }
}

/// The lowest of these counts; those of zero are added to `zeros`.
fn fewest<K: Ord + std::fmt::Debug>(
    counts: &BTreeMap<K, u64>,
    keys: impl Iterator<Item = K>,
    zeros: &mut Vec<String>,
) -> u64 {
    let mut fewest = u64::MAX;
    for key in keys {
        let count = counts.get(&key).copied().unwrap_or(0);
        if count == 0 {
            zeros.push(format!("no sheet has type and part {key:?}"));
        }
        fewest = fewest.min(count);
    }
    fewest
}

/// The records after the head of a message of one field, and their names.
struct Field<'a> {
    records: Vec<Record>,
    names: &'a [u8],
}

impl Field<'_> {
    fn of(case: &Case) -> Field<'_> {
        let records = case.sheet.chunks_exact(RECORD).map(Record::decode);
        Field {
            records: records
                .skip_while(|record| record.kind != kind::HEAD)
                .skip(1)
                .collect(),
            names: &case.names,
        }
    }

    fn find(&self, is_it: impl Fn(&Record) -> bool) -> Option<u8> {
        let found = self.records.iter().find(|record| is_it(record));
        found.map(|record| record.kind)
    }

    fn is_there(&self, kind: u8, is_it: impl Fn(&Record) -> bool) -> bool {
        self.find(|record| record.kind == kind && is_it(record))
            .is_some()
    }

    fn annotations(&self) -> impl Iterator<Item = &[u8]> {
        let annotations = self.records.iter().filter(|r| r.kind == kind::ANNOTATION);
        annotations.map(|r| &self.names[r.name_offset as usize..r.name_end() as usize])
    }

    /// Whether it has an annotation of this word, or for the last word one of no other.
    fn has(&self, word: &str) -> bool {
        let known = |name: &[u8]| ANNOTATIONS[..6].iter().any(|word| word.as_bytes() == name);
        self.annotations().any(|name| match word {
            "another" => !known(name),
            _ => name == word.as_bytes(),
        })
    }

    /// Whether it has what the rule is about.
    fn concerns(&self, rule: u16) -> bool {
        let any = |kinds: std::ops::RangeInclusive<u8>| {
            self.find(|record| kinds.contains(&record.kind)).is_some()
        };
        let operand = |sub: u8| self.is_there(kind::OPERAND, |record| record.sub == sub);
        let unkeyed = |record: &Record| record.sub <= sub::ARGUMENT_HEX && record.name_len == 0;
        match rule {
            6 | 7 => any(kind::NAMED..=kind::NAMED),
            8 => any(kind::SET..=kind::MAP),
            9 => any(kind::FIXED_ARRAY..=kind::FIXED_ARRAY),
            10 => any(kind::VEC2..=kind::MAT4),
            11 => any(kind::BITS..=kind::BITS),
            12 => any(kind::BIT_NAME..=kind::BIT_NAME),
            13 => self.has("varint") || self.has("zigzag"),
            14 => self.has("varint"),
            15 => self.has("zigzag"),
            16 => self.has("delta"),
            17 => self.has("limit"),
            18 | 19 => self.has("limit") && self.is_there(kind::ARGUMENT, unkeyed),
            20 | 21 => self.has("deprecated"),
            22 => self.annotations().count() > 1,
            23 => operand(sub::OPERAND_INT),
            24 => operand(sub::OPERAND_FLOAT),
            25 => operand(sub::OPERAND_STRING),
            26 => operand(sub::OPERAND_BOOL),
            27 => operand(sub::OPERAND_CONST),
            28 => self.is_there(kind::CMP, |record| record.sub >= sub::LT),
            29 => any(kind::RANGE..=kind::RANGE),
            _ => any(kind::LEN_CMP..=kind::LEN_RANGE),
        }
    }
}
