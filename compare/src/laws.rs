//! What demand 3 and document 01 say of every accepted sheet, tried on whatever answers:
//! items moved, names laid out anew, items added, fields counted, unused bytes changed, the
//! bound on the total.

use crate::format::{
    has_name, kind, Record, LIST_LIMIT, NAMES_LIMIT, RECORD, SHEET_LIMIT, VIOLATION,
    VIOLATIONS_PER_RECORD,
};
use crate::generate::{self, fill_unused, Case};
use crate::items::{split, Body, Item, FIELD_ITEMS};
use crate::random::Random;
use crate::reading::Answer;
use std::collections::{BTreeMap, HashMap, HashSet};

/// How many laws there are.
const LAWS: usize = 10;

/// What is tried, how often each law was tried on it, and how often it failed.
pub struct Tried<'a> {
    answer: &'a dyn Fn(&[u8], &[u8]) -> Answer,
    laws: BTreeMap<&'static str, (u64, u64)>,
    /// The number of the case that is tried.
    case: u64,
    /// The law that failed first, and the case.
    first: Option<(&'static str, u64)>,
}

impl Tried<'_> {
    fn answer(&self, sheet: &[u8], names: &[u8]) -> Answer {
        (self.answer)(sheet, names)
    }

    fn note(&mut self, law: &'static str, holds: bool) {
        let (tried, failed) = self.laws.entry(law).or_default();
        *tried += 1;
        *failed += u64::from(!holds);
        if !holds && self.first.is_none() {
            self.first = Some((law, self.case));
        }
    }

    /// Prints the counts; true if every law was tried and none failed.
    pub fn print(&self) -> bool {
        for (law, (count, failed)) in &self.laws {
            println!("{law}: tried {count}, failed {failed}");
        }
        if let Some((law, case)) = self.first {
            println!("failed first: {law}, on case {case}");
        }
        self.laws.len() == LAWS && self.first.is_none()
    }
}

/// Tries every law on the cases of a seed, as `answer` answers them.
pub fn try_all(seed: u64, count: u64, answer: &dyn Fn(&[u8], &[u8]) -> Answer) -> Tried<'_> {
    let mut tried = Tried {
        answer,
        laws: BTreeMap::new(),
        case: 0,
        first: None,
    };
    for i in 0..count {
        tried.case = i;
        let case = generate::case(seed, i);
        let before = answer(&case.sheet, &case.names);
        let mut random = Random::new(!seed, i);
        unused_bytes(&case, &before, &mut random, &mut tried);
        if (3..=8).contains(&before.number) {
            first_fault(&case, &before, &mut tried);
        }
        if before.number == 0 {
            let body = Body::of(&case.sheet);
            bound(&case, &before, &mut tried);
            fields_counted(&body, &before, &mut tried);
            let moved = moved(&case, &body, &before, &mut random, &mut tried);
            laid_out(&case, [&body, &moved], &before, &mut random, &mut tried);
            let other = generate::case(seed, random.next());
            added(&case, body, &other, &before, &mut random, &mut tried);
        }
    }
    tried
}

/// How often each class and severity occurs.
fn tally(answer: &Answer) -> BTreeMap<(u16, u8), u32> {
    let mut tally = BTreeMap::new();
    for v in &answer.list {
        *tally.entry((v.class, v.severity)).or_default() += 1;
    }
    tally
}

// ---------------------------------------------------------------------------
// Laws
// ---------------------------------------------------------------------------

/// Bytes that a kind does not use alter no answer, a refusal neither.
fn unused_bytes(case: &Case, before: &Answer, random: &mut Random, tried: &mut Tried) {
    let mut sheet = case.sheet.clone();
    for bytes in sheet.chunks_exact_mut(RECORD) {
        let mut record = Record::decode(bytes);
        fill_unused(&mut record, random);
        bytes.copy_from_slice(&record.encode());
    }
    let holds = tried.answer(&sheet, &case.names) == *before;
    tried.note("unused bytes alter no answer", holds);
}

/// What stands after the first fault does not matter, and before it there is none.
fn first_fault(case: &Case, before: &Answer, tried: &mut Tried) {
    let index = before.index as usize;
    let end = case.sheet.len().min((index + 1) * RECORD);
    let with_it = tried.answer(&case.sheet[..end], &case.names);
    tried.note(
        "a refusal stays when the sheet is cut after it",
        with_it == *before,
    );
    let without = tried.answer(&case.sheet[..index * RECORD], &case.names);
    let early_end = without.number == 6 && without.index == before.index;
    let no_fault = matches!(without.number, 0 | 9) || early_end;
    tried.note("before a refusal there is no fault", no_fault);
}

fn bound(case: &Case, before: &Answer, tried: &mut Tried) {
    let total = before.list.len();
    let holds = total <= VIOLATIONS_PER_RECORD * (case.sheet.len() / RECORD);
    tried.note("the total is at most 3 times the records", holds);
    let fits = total * VIOLATION <= LIST_LIMIT;
    tried.note("the longest list holds every violation", fits);
}

/// Fields are the distinct untombstoned ordinals and the violations of 14 and 16.
fn fields_counted(body: &Body, before: &Answer, tried: &mut Tried) {
    let of_kind = |list: &[Item], kind: u8| -> Vec<u64> {
        let starts = list.iter().map(|item| item[0]);
        starts
            .filter(|start| start.kind == kind)
            .map(|start| start.value)
            .collect()
    };
    let (mut fields, mut distinct) = (0, 0);
    for list in body.field_lists() {
        let ordinals = of_kind(&list, kind::FIELD);
        let tombstones = of_kind(&list, kind::FIELD_TOMBSTONE);
        fields += ordinals.len();
        let untombstoned = ordinals
            .iter()
            .filter(|ordinal| !tombstones.contains(ordinal));
        distinct += untombstoned.collect::<HashSet<_>>().len();
    }
    let reused = before
        .list
        .iter()
        .filter(|v| v.class == 14 || v.class == 16)
        .count();
    tried.note("fields counted", fields == distinct + reused);
}

/// Items in another order: accepted again, each class and severity as often.
fn moved(
    case: &Case,
    body: &Body,
    before: &Answer,
    random: &mut Random,
    tried: &mut Tried,
) -> Body {
    let mut items = body.items.clone();
    if body.is_union() {
        for item in &mut items {
            let (start, mut fields) = split(item, FIELD_ITEMS);
            random.shuffle(&mut fields);
            *item = start
                .into_iter()
                .chain(fields.into_iter().flatten())
                .collect();
        }
    }
    if !body.is_union() || random.chance(70) {
        random.shuffle(&mut items);
    }
    let moved = Body {
        front: body.front.clone(),
        head: body.head,
        items,
    };
    let after = tried.answer(&moved.sheet(), &case.names);
    tried.note("moved items: accepted again", after.number == 0);
    tried.note(
        "moved items: every class as often",
        tally(&after) == tally(before),
    );
    moved
}

/// Every name kept in a names text laid out anew: the same answer where the items stay, and
/// every class as often where they moved.
fn laid_out(
    case: &Case,
    [stays, moved]: [&Body; 2],
    before: &Answer,
    random: &mut Random,
    tried: &mut Tried,
) {
    if let Some((sheet, names)) = anew(&stays.sheet(), &case.names, random) {
        let holds = tried.answer(&sheet, &names) == *before;
        tried.note("names laid out anew: the same answer", holds);
    }
    if let Some((sheet, names)) = anew(&moved.sheet(), &case.names, random) {
        let after = tried.answer(&sheet, &names);
        let holds = after.number == 0 && tally(&after) == tally(before);
        tried.note(
            "names laid out anew, items moved: every class as often",
            holds,
        );
    }
}

/// The sheet with every name at a place of its own, or at one for all names with its bytes,
/// among noise; `None` if that names text is too long.
fn anew(sheet: &[u8], names: &[u8], random: &mut Random) -> Option<(Vec<u8>, Vec<u8>)> {
    let mut records: Vec<Record> = sheet.chunks_exact(RECORD).map(Record::decode).collect();
    let mut order: Vec<usize> = (0..records.len()).collect();
    random.shuffle(&mut order);
    let once = random.chance(50);
    let mut text: Vec<u8> = Vec::new();
    let mut places: HashMap<Vec<u8>, u32> = HashMap::new();
    for i in order {
        let record = &mut records[i];
        if !has_name(record.kind, record.sub) {
            continue;
        }
        let part = &names[record.name_offset as usize..record.name_end() as usize];
        if let Some(&place) = places.get(part).filter(|_| once) {
            record.name_offset = place;
            continue;
        }
        let noise = random.below(3);
        text.extend((0..noise).map(|_| random.byte()));
        record.name_offset = text.len() as u32;
        places.insert(part.to_vec(), record.name_offset);
        text.extend_from_slice(part);
    }
    let sheet = records.iter().flat_map(Record::encode).collect();
    (text.len() <= NAMES_LIMIT).then_some((sheet, text))
}

/// Items of another sheet added: no class less often, 14 and 16 counted together.
fn added(
    case: &Case,
    mut body: Body,
    other: &Case,
    before: &Answer,
    random: &mut Random,
    tried: &mut Tried,
) {
    if tried.answer(&other.sheet, &other.names).number != 0 {
        return;
    }
    let names = [&case.names[..], &other.names].concat();
    let mut new = Body::of(&other.sheet);
    let records = (case.sheet.len() + other.sheet.len()) / RECORD;
    if body.head != new.head || names.len() > NAMES_LIMIT || records * RECORD > SHEET_LIMIT {
        return;
    }
    for record in new.items.iter_mut().flatten() {
        record.name_offset = record.name_offset.wrapping_add(case.names.len() as u32);
    }
    for item in new.items {
        let at = random.below(body.items.len() + 1);
        let joins = body.is_union() && at < body.items.len() && random.chance(50);
        if joins && body.items[at][0].kind == kind::VARIANT {
            let (start, fields) = split(&body.items[at], FIELD_ITEMS);
            let (_, more) = split(&item, FIELD_ITEMS);
            let joined = interleaved(fields, more, random);
            body.items[at] = start
                .into_iter()
                .chain(joined.into_iter().flatten())
                .collect();
        } else {
            body.items.insert(at, item);
        }
    }
    let after = tried.answer(&body.sheet(), &names);
    if after.number == 0 {
        tried.note("added items: no class less often", no_less(before, &after));
    }
}

fn interleaved(mut old: Vec<Item>, new: Vec<Item>, random: &mut Random) -> Vec<Item> {
    for item in new {
        old.insert(random.below(old.len() + 1), item);
    }
    old
}

fn no_less(before: &Answer, after: &Answer) -> bool {
    let count = |answer: &Answer| {
        let mut counts: BTreeMap<u16, u32> = BTreeMap::new();
        for v in &answer.list {
            let class = if v.class == 16 { 14 } else { v.class };
            *counts.entry(class).or_default() += 1;
        }
        counts
    };
    let after = count(after);
    let less = |(class, n): (u16, u32)| after.get(&class).copied().unwrap_or(0) < n;
    !count(before).into_iter().any(less)
}
