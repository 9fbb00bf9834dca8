//! Few of many cases that have, between them, what the many have: each mistake in a
//! definition is tried on these first.

use crate::coverage::{place, Place};
use crate::format::{
    condition_parts, has_ordinal, kind, sub, subs, type_parts, Record, DEPTH_LIMIT, RECORD,
};
use crate::generate;
use crate::reading::{answer, Answer};
use std::collections::BTreeSet;

/// The most records of a chosen case: a full sheet takes the checker as long as many small ones.
const SHORT: usize = 100;
/// How many cases are chosen; more if they lack something necessary.
const ENOUGH: usize = 250;

/// A kind, and a sub if the kind has subs.
type KindAndSub = (u8, u8);

/// Something that a case has.
#[derive(Debug, Clone, Copy, PartialEq, Eq, PartialOrd, Ord)]
enum Trait {
    /// A family, with whether the case is accepted.
    Family(&'static str, bool),
    /// A refusal by its number and place.
    Refusal(u32, Place),
    /// A rule, with the kind of the record at which it was broken.
    Violation(u16, u8),
    Record(KindAndSub),
    /// The row, the kind of the record that is refused, and whether it stands far into the sheet.
    RefusedAt(u32, u8, bool),
    /// The kind that row 3 refuses, and whether for the first sub that the kind does not have.
    Unknown(u8, bool),
    /// The row by which a case of a family is refused.
    FamilyRefused(&'static str, u32),
    /// The head's sub, the item's kind and an ordinal next to a limit.
    Ordinal(u8, u8, u64),
    /// An annotation's word, and whether an argument of it has a key.
    Argument(Word, bool),
    /// Whether an argument of a limit has a key, its number, and whether the field is a fixed array.
    Limit(bool, u64, bool),
    /// An annotation's word and the field's type.
    Annotated(Word, KindAndSub),
    /// Whether a condition is on the length, and the field's type.
    Condition(bool, KindAndSub),
    /// An operand's sub, the field's type, and whether that is optional.
    Operand(u8, KindAndSub, bool),
    /// The kind of a type, and of the type directly before it.
    Inner(u8, u8),
    /// How the name of a type or of a constant is known.
    Known(u8, Known),
    /// What a bit name begins with, and whether all after that is good.
    BitName(Start, bool),
}

impl Trait {
    /// Whether some chosen case must have it. The others are met as far as enough cases go.
    fn is_necessary(&self) -> bool {
        matches!(
            self,
            Trait::Family(..)
                | Trait::Refusal(..)
                | Trait::Violation(..)
                | Trait::Record(..)
                | Trait::Unknown(..)
                | Trait::Ordinal(..)
                | Trait::Annotated(..)
                | Trait::BitName(..)
        )
    }
}

// ---------------------------------------------------------------------------
// The choice
// ---------------------------------------------------------------------------

/// The numbers of the chosen ones of the first `count` cases of a seed. One after another the
/// case is taken that has the most for its length of what none before has.
pub fn selection(seed: u64, count: u64) -> Vec<u64> {
    let mut left: Vec<Candidate> = (0..count).filter_map(|i| candidate(seed, i)).collect();
    let mut chosen = Vec::new();
    while let Some(best) = left.iter().max_by_key(|candidate| candidate.worth()) {
        if chosen.len() >= ENOUGH && left.iter().all(|candidate| candidate.necessary() == 0) {
            break;
        }
        chosen.push(best.i);
        let had = best.traits.clone();
        for candidate in &mut left {
            candidate.traits.retain(|each| !had.contains(each));
        }
        left.retain(|candidate| !candidate.traits.is_empty());
    }
    chosen.sort_unstable();
    chosen
}

/// A case and those of its traits that no chosen one has.
struct Candidate {
    i: u64,
    records: usize,
    traits: BTreeSet<Trait>,
}

impl Candidate {
    fn necessary(&self) -> usize {
        self.traits
            .iter()
            .filter(|each| each.is_necessary())
            .count()
    }

    /// Traits by length, with something added to the length for what every case costs.
    fn worth(&self) -> usize {
        1000 * (self.traits.len() + 10 * self.necessary()) / (self.records + 4)
    }
}

fn candidate(seed: u64, i: u64) -> Option<Candidate> {
    let case = generate::case(seed, i);
    let records = case.sheet.len() / RECORD;
    if records > SHORT {
        return None;
    }
    let answer = answer(&case.sheet, &case.names);
    let mut traits = traits(&case.sheet, &case.names, &answer);
    traits.insert(Trait::Family(case.family, answer.number == 0));
    traits.insert(Trait::FamilyRefused(case.family, answer.number));
    Some(Candidate { i, records, traits })
}

// ---------------------------------------------------------------------------
// What a case has
// ---------------------------------------------------------------------------

fn traits(sheet: &[u8], names: &[u8], answer: &Answer) -> BTreeSet<Trait> {
    let records: Vec<Record> = sheet.chunks_exact(RECORD).map(Record::decode).collect();
    let mut traits = BTreeSet::new();
    if answer.number != 0 {
        let index = answer.index as usize;
        let kind = records.get(index).map_or(0, |record| record.kind);
        traits.insert(Trait::Refusal(answer.number, place(index, records.len())));
        traits.insert(Trait::RefusedAt(answer.number, kind, index >= DEPTH_LIMIT));
        if answer.number == 3 {
            let is_next = subs(kind).is_some_and(|count| count > 0 && records[index].sub == count);
            traits.insert(Trait::Unknown(kind, is_next));
        }
        return traits;
    }
    for violation in &answer.list {
        let kind = records[usize::from(violation.record)].kind;
        traits.insert(Trait::Violation(violation.rule, kind));
    }
    let mut before = Before::default();
    for record in &records {
        before.meet(record, names, &mut traits);
    }
    let is_name = |record: &&Record| match record.kind {
        kind::NAMED => true,
        kind::OPERAND => record.sub == sub::OPERAND_CONST,
        _ => false,
    };
    for record in records.iter().filter(is_name) {
        traits.insert(Trait::Known(record.kind, known(record, &records, names)));
    }
    for record in records
        .iter()
        .filter(|record| record.kind == kind::BIT_NAME)
    {
        let name = name_of(record, names);
        let is_good = |byte: &u8| byte.is_ascii_alphanumeric() || *byte == b'_';
        let rest_is_good = name.iter().skip(1).all(is_good);
        traits.insert(Trait::BitName(start(name), rest_is_good));
    }
    traits
}

fn name_of<'n>(record: &Record, names: &'n [u8]) -> &'n [u8] {
    &names[record.name_offset as usize..record.name_end() as usize]
}

/// The sub of a name's declaration if it has one, whether it is imported, and whether there is a wildcard.
type Known = (Option<u8>, bool, bool);

fn known(record: &Record, records: &[Record], names: &[u8]) -> Known {
    let name = name_of(record, names);
    let with_name = |kind: u8| {
        let mut found = records.iter().filter(move |r| r.kind == kind);
        found.find(|r| name_of(r, names) == name)
    };
    (
        with_name(kind::DECLARATION).map(|r| r.sub),
        with_name(kind::IMPORT).is_some(),
        records.iter().any(|r| r.kind == kind::WILDCARD),
    )
}

/// What a bit name begins with.
#[derive(Debug, Clone, Copy, PartialEq, Eq, PartialOrd, Ord)]
enum Start {
    Nothing,
    Lower,
    Upper,
    Digit,
    Underscore,
    Other,
}

fn start(name: &[u8]) -> Start {
    match name.first() {
        None => Start::Nothing,
        Some(b'a'..=b'z') => Start::Lower,
        Some(b'A'..=b'Z') => Start::Upper,
        Some(b'0'..=b'9') => Start::Digit,
        Some(b'_') => Start::Underscore,
        Some(_) => Start::Other,
    }
}

/// An annotation's word by its place in `WORDS`, or any other name.
type Word = Option<usize>;

/// The words that annotations know; the first four are judged by the field's type.
const WORDS: [&[u8]; 6] = [
    b"varint",
    b"zigzag",
    b"delta",
    b"limit",
    b"deprecated",
    b"doc",
];
const LIMIT: usize = 3;
/// Ordinals next to a limit.
const ORDINALS: [u64; 8] = [63, 64, 255, 256, 65535, 65536, 0xFFFF_FFFE, 0xFFFF_FFFF];

/// What stands before a record.
#[derive(Default)]
struct Before {
    head: u8,
    /// The words of the field's annotations.
    words: Vec<Word>,
    /// The numbers in its limits, with whether they have a key.
    limits: Vec<(bool, u64)>,
    is_optional: bool,
    /// The field's type, behind its optionals.
    ty: Option<KindAndSub>,
    /// The kind of the last type or condition.
    kind: u8,
}

impl Before {
    fn meet(&mut self, record: &Record, names: &[u8], traits: &mut BTreeSet<Trait>) {
        let has_subs = subs(record.kind) != Some(0);
        let this = (record.kind, if has_subs { record.sub } else { 0 });
        let ty = self.ty.unwrap_or_default();
        traits.insert(Trait::Record(this));
        if has_ordinal(record.kind) && ORDINALS.contains(&record.value) {
            traits.insert(Trait::Ordinal(self.head, record.kind, record.value));
        }
        match record.kind {
            kind::HEAD => self.head = record.sub,
            kind::FIELD => {
                *self = Before {
                    head: self.head,
                    ..Before::default()
                }
            }
            kind::ANNOTATION => {
                let name = name_of(record, names);
                self.words.push(WORDS.iter().position(|word| *word == name));
            }
            kind::ARGUMENT => {
                let word = self.words.last().copied().flatten();
                let has_key = record.name_len > 0;
                traits.insert(Trait::Argument(word, has_key));
                if word == Some(LIMIT) && record.sub <= sub::ARGUMENT_HEX {
                    self.limits.push((has_key, record.value));
                }
            }
            kind::CMP..=kind::LEN_RANGE => {
                traits.insert(Trait::Condition(record.kind >= kind::LEN_CMP, ty));
            }
            kind::OPERAND if self.kind < kind::LEN_CMP => {
                traits.insert(Trait::Operand(record.sub, ty, self.is_optional));
            }
            _ => {}
        }
        if type_parts(record.kind).is_some() {
            self.meet_type(this, traits);
        }
        if type_parts(record.kind).is_some() || condition_parts(record.kind).is_some() {
            self.kind = record.kind;
        }
    }

    fn meet_type(&mut self, this: KindAndSub, traits: &mut BTreeSet<Trait>) {
        if self.ty.is_some() {
            traits.insert(Trait::Inner(self.kind, this.0));
        } else if this.0 == kind::OPTIONAL {
            self.is_optional = true;
        } else {
            self.ty = Some(this);
            let limits = self.limits.iter();
            traits.extend(
                limits.map(|(has_key, n)| Trait::Limit(*has_key, *n, this.0 == kind::FIXED_ARRAY)),
            );
            let judged = self
                .words
                .iter()
                .filter(|word| word.is_some_and(|w| w <= LIMIT));
            traits.extend(judged.map(|word| Trait::Annotated(*word, this)));
        }
    }
}
