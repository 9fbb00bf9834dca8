//! Faults put into good sheets: chosen ones at a first, middle or last record, and
//! plain damage of bytes and records.

use super::maker::ORDINALS;
use crate::draft::Draft;
use crate::format::{has_name, has_ordinal, kind, sub, subs, Record, DEPTH_LIMIT, RECORD};
use crate::random::Random;

/// Where a fault is put.
#[derive(Clone, Copy, PartialEq)]
enum Place {
    First,
    Middle,
    /// The sheet is cut after the fault.
    Last,
}

/// Puts one fault of a chosen row, 3 to 8, into the draft.
pub fn fault(draft: &mut Draft, random: &mut Random) {
    if draft.records.is_empty() {
        return;
    }
    let place = *random.pick(&[Place::First, Place::Middle, Place::Middle, Place::Last]);
    let row = random.between(3, 8);
    let at = match row {
        3 => unknown(draft, place, random),
        4 => beyond_the_names(draft, place, random),
        5 => too_large(draft, place, random),
        6 => out_of_order(draft, place, random),
        7 => too_deep(draft, random),
        _ => declared_twice(draft, random),
    };
    if place == Place::Last {
        draft.records.truncate(at + 1);
    }
}

fn index(draft: &Draft, place: Place, random: &mut Random) -> usize {
    match place {
        Place::First => 0,
        _ => random.below(draft.records.len()),
    }
}

/// Row 3: byte 3, a sub at a record whose kind has subs if there is one, or a kind.
fn unknown(draft: &mut Draft, place: Place, random: &mut Random) -> usize {
    let count = |record: &Record| subs(record.kind).unwrap_or(0);
    let what = random.below(3);
    let with_subs = (what == 1).then(|| find(draft, place, random, |r| count(r) > 0));
    if let Some(at) = with_subs.flatten() {
        let known = count(&draft.records[at]);
        draft.records[at].sub = if random.chance(50) {
            known
        } else {
            random.between(known.into(), 255) as u8
        };
        return at;
    }
    let at = index(draft, place, random);
    if what == 0 {
        draft.records[at].byte3 = random.byte() | 1;
    } else {
        draft.records[at].kind = unknown_kind(random);
    }
    at
}

fn unknown_kind(random: &mut Random) -> u8 {
    let near = [0, 4, 9, 17, 19, 23, 29, 49, 57, 59, 61, 255];
    *random.pick(&near)
}

/// Row 4, at a record that has a name if there is one.
fn beyond_the_names(draft: &mut Draft, place: Place, random: &mut Random) -> usize {
    let named = |r: &Record| has_name(r.kind, r.sub);
    let Some(at) = find(draft, place, random, named) else {
        return 0;
    };
    let len = draft.names.len() as u32;
    let record = &mut draft.records[at];
    match random.below(4) {
        0 => (record.name_offset, record.name_len) = (len + 1, 0),
        1 => (record.name_offset, record.name_len) = (u32::MAX, 255),
        2 => (record.name_offset, record.name_len) = (len, 1),
        _ => {
            let part = random.below(200).min(draft.names.len());
            (record.name_offset, record.name_len) = (len - part as u32, part as u8 + 1);
        }
    }
    at
}

/// Row 5, at a record with an ordinal; at the first record one is made.
fn too_large(draft: &mut Draft, place: Place, random: &mut Random) -> usize {
    if place == Place::First {
        draft.records[0].kind = *random.pick(&[11, 12, 14, 15]);
    }
    let Some(at) = find(draft, place, random, |r| has_ordinal(r.kind)) else {
        return 0;
    };
    draft.records[at].value = *random.pick(&[1 << 32, 1 << 33, u64::MAX, (1 << 32) + 1]);
    at
}

/// Row 6: a record of another kind at this place, or one left out, or an early end.
fn out_of_order(draft: &mut Draft, place: Place, random: &mut Random) -> usize {
    let at = index(draft, place, random);
    match random.below(4) {
        0 => {
            draft.records.truncate(at + 1);
            at
        }
        1 => {
            draft.records.remove(at);
            at
        }
        2 => {
            draft
                .records
                .insert(at, any_record(draft.names.len(), random));
            at
        }
        _ => {
            draft.records[at] = any_record(draft.names.len(), random);
            at
        }
    }
}

/// Row 7, by nested types before the first type, or nots before the first condition.
fn too_deep(draft: &mut Draft, random: &mut Random) -> usize {
    let is_type = |r: &Record| (30..=48).contains(&r.kind);
    let is_condition = |r: &Record| (50..=56).contains(&r.kind);
    let place = draft
        .records
        .iter()
        .position(|r| is_type(r) || is_condition(r) && random.chance(50));
    let Some(at) = place else { return 0 };
    let kind = if is_type(&draft.records[at]) {
        kind::OPTIONAL
    } else {
        kind::NOT
    };
    let wrapper = Record {
        kind,
        ..Record::default()
    };
    let count = random.between(DEPTH_LIMIT - 2, DEPTH_LIMIT + 1);
    draft.records.splice(at..at, vec![wrapper; count]);
    (at + DEPTH_LIMIT).min(draft.records.len() - 1)
}

/// Row 8: a declaration again, with any sub, somewhere after the first.
fn declared_twice(draft: &mut Draft, random: &mut Random) -> usize {
    let head = draft
        .records
        .iter()
        .position(|r| r.kind == kind::HEAD)
        .unwrap_or(0);
    let first = draft
        .records
        .iter()
        .position(|r| r.kind == kind::DECLARATION);
    let mut again = match first {
        Some(first) => draft.records[first],
        None => Record {
            kind: kind::DECLARATION,
            ..Record::default()
        },
    };
    if first.is_none() {
        draft.records.insert(head, again);
    }
    let subs = [sub::MESSAGE, sub::CONST, sub::NEWTYPE, 9];
    again.sub = *random.pick(&subs);
    let at = if first.is_none() { head + 1 } else { head };
    draft.records.insert(at, again);
    at
}

/// A record at the place, or else any, for which `holds`.
fn find(
    draft: &Draft,
    place: Place,
    random: &mut Random,
    holds: impl Fn(&Record) -> bool,
) -> Option<usize> {
    let all: Vec<usize> = (0..draft.records.len())
        .filter(|&i| holds(&draft.records[i]))
        .collect();
    match place {
        _ if all.is_empty() => None,
        Place::First => Some(all[0]),
        _ => Some(*random.pick(&all)),
    }
}

/// A record of any known kind and sub, with a name that fits.
fn any_record(names: usize, random: &mut Random) -> Record {
    let kind = *random.pick(&kind::ALL);
    let count = usize::from(subs(kind).unwrap_or(0)).max(1);
    let name_len = random.below(names.min(3) + 1);
    let name_offset = random.below(names - name_len + 1);
    Record {
        kind,
        sub: random.below(count) as u8,
        name_len: name_len as u8,
        name_offset: name_offset as u32,
        value: random.below(4) as u64,
        ..Record::default()
    }
}

/// Sheets of any records, mostly with a head in front.
pub fn soup(random: &mut Random) -> (Vec<u8>, Vec<u8>) {
    let names = b"abcABC".to_vec();
    let mut draft = Draft {
        records: Vec::new(),
        names,
    };
    if random.chance(80) {
        let head = random.below(5) as u8;
        draft.add(kind::HEAD, head);
    }
    for _ in 0..random.between(0, 6) {
        let record = any_record(draft.names.len(), random);
        draft.records.push(record);
    }
    if random.chance(10) {
        let bytes = (0..random.below(200)).map(|_| random.byte()).collect();
        return (bytes, draft.names);
    }
    (draft.sheet(), draft.names)
}

/// A copy with one to three hurts.
pub fn damaged(mut sheet: Vec<u8>, mut names: Vec<u8>, random: &mut Random) -> (Vec<u8>, Vec<u8>) {
    for _ in 0..random.between(1, 3) {
        if sheet.len() < RECORD {
            break;
        }
        if random.chance(70) {
            hurt_record(&mut sheet, names.len(), random);
        } else {
            hurt_bytes(&mut sheet, &mut names, random);
        }
    }
    (sheet, names)
}

/// Bytes changed or lost.
fn hurt_bytes(sheet: &mut Vec<u8>, names: &mut Vec<u8>, random: &mut Random) {
    let at = random.below(sheet.len());
    match random.below(6) {
        0 => sheet[at] ^= 1 << random.below(8),
        1 => sheet[at] = random.byte(),
        2 => sheet.truncate(at),
        3 => sheet.truncate(at / RECORD * RECORD),
        4 => names.truncate(random.below(names.len() + 1)),
        _ if names.is_empty() => {}
        _ => {
            let at = random.below(names.len());
            names[at] ^= 1 << random.below(8);
        }
    }
}

/// A record moved, doubled, lost or changed.
fn hurt_record(sheet: &mut Vec<u8>, names: usize, random: &mut Random) {
    let mut records: Vec<Record> = sheet.chunks_exact(RECORD).map(Record::decode).collect();
    let at = random.below(records.len());
    let to = random.below(records.len());
    match random.below(9) {
        0 => records.swap(at, to),
        1 => records.insert(to, records[at]),
        2 => drop(records.remove(at)),
        3 => records[at].kind = *random.pick(&kind::ALL),
        4 => records[at].sub = random.below(15) as u8,
        5 => records[at].name_len = random.below(4) as u8,
        6 => records[at].name_offset = random.below(names + 2) as u32,
        7 => records[at].value = *random.pick(&ORDINALS),
        _ => {
            (records[at].name_len, records[at].name_offset) =
                (records[to].name_len, records[to].name_offset)
        }
    }
    sheet.clear();
    records
        .iter()
        .for_each(|record| sheet.extend_from_slice(&record.encode()));
}
