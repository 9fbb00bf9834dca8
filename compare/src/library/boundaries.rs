//! Sheets and names texts on both sides of every limit that a refusal has.

use crate::draft::Draft;
use crate::format::{kind, sub, Record, DEPTH_LIMIT, NAMES_LIMIT, RECORD, SHEET_LIMIT};
use crate::generate::Case;

/// A limit, how many cases it has, and how one is made.
struct Limit {
    name: &'static str,
    count: u64,
    make: fn(usize) -> (Vec<u8>, Vec<u8>),
}

const RECORDS: usize = SHEET_LIMIT / RECORD;
/// Every place of a sheet of so many records is tried, and the last ones of a full sheet.
const FEW: usize = 128;
const LAST: usize = 16;
/// Declarations with a type each, and a head, in a sheet.
const NEWTYPES: usize = (RECORDS - 1) / 2;

const LIMITS: [Limit; 9] = [
    Limit {
        name: "length of the sheet",
        count: 2 * 4 * RECORD as u64 * 2,
        make: sheet_length,
    },
    Limit {
        name: "length of the names text",
        count: 32 * 9,
        make: names_length,
    },
    Limit {
        name: "ordinals",
        count: 4 * 8,
        make: ordinal,
    },
    Limit {
        name: "depth",
        count: 12 * (3 * TYPES.len() + CONDITIONS.len()) as u64,
        make: depth,
    },
    Limit {
        name: "early end",
        count: 2 * EVERY_KIND.len() as u64,
        make: early_end,
    },
    Limit {
        name: "a fault at every record",
        count: 6 * (FEW + LAST) as u64,
        make: fault_anywhere,
    },
    Limit {
        name: "several faults of one or two records",
        count: 3 * 16 * 16,
        make: several_faults,
    },
    Limit {
        name: "second declaration",
        count: 2 * (FEW - 2 + LAST) as u64,
        make: second_declaration,
    },
    Limit {
        name: "chains of newtypes",
        count: 4 * (FEW + LAST) as u64,
        make: chain,
    },
];

pub fn count() -> u64 {
    LIMITS.iter().map(|limit| limit.count).sum()
}

/// Case `i`, below `count()`.
pub fn case(mut i: u64) -> Case {
    for limit in &LIMITS {
        if i < limit.count {
            let (sheet, names) = (limit.make)(i as usize);
            return Case {
                family: limit.name,
                sheet,
                names,
            };
        }
        i -= limit.count;
    }
    unreachable!("there are {} cases", count())
}

/// The last digit of `i` in this base, which is taken off.
fn take(i: &mut usize, base: usize) -> usize {
    let digit = *i % base;
    *i /= base;
    digit
}

fn made(draft: Draft) -> (Vec<u8>, Vec<u8>) {
    (draft.sheet(), draft.names)
}

/// A message of tombstones, `records` records in all.
fn message(records: usize) -> Draft {
    let mut draft = Draft::new();
    draft.head(sub::HEAD_MESSAGE);
    for i in 1..records {
        draft.valued(kind::FIELD_TOMBSTONE, 0, i as u64);
    }
    draft
}

/// Row 1: every length next to 0 and next to the limit, of good records and of zeros.
fn sheet_length(mut i: usize) -> (Vec<u8>, Vec<u8>) {
    let is_good = take(&mut i, 2) == 1;
    let is_long = take(&mut i, 2) == 1;
    let start = if is_long { SHEET_LIMIT - 2 * RECORD } else { 0 };
    let draft = message(RECORDS + 3);
    let mut sheet = draft.sheet();
    sheet.truncate(start + i);
    if !is_good {
        sheet.fill(0);
    }
    (sheet, draft.names)
}

/// Rows 2 and 4: the head's name ends before, with and after a names text of every length
/// next to 0 and next to the limit.
fn names_length(mut i: usize) -> (Vec<u8>, Vec<u8>) {
    let name_len = [0, 1, 255][take(&mut i, 3)];
    let beyond = take(&mut i, 3);
    let is_long = take(&mut i, 2) == 1;
    let len = if is_long { NAMES_LIMIT - 8 + i } else { i };
    let mut draft = message(2);
    draft.names = vec![b'n'; len];
    draft.records[0].name_len = name_len as u8;
    draft.records[0].name_offset = (len + beyond).saturating_sub(name_len + 1) as u32;
    made(draft)
}

/// Row 5: ordinals next to 2^32, of each kind that has one.
fn ordinal(mut i: usize) -> (Vec<u8>, Vec<u8>) {
    let value = (1 << 32) - 4 + take(&mut i, 8) as u64;
    let mut draft = Draft::new();
    let is_field = i < 2;
    draft.head(if is_field {
        sub::HEAD_MESSAGE
    } else {
        sub::HEAD_ENUM
    });
    match i {
        0 => {
            draft.field(b"f", value);
            draft.u8_type();
        }
        1 => draft.valued(kind::FIELD_TOMBSTONE, 0, value),
        2 => draft.variant(b"v", value),
        _ => draft.valued(kind::TOMBSTONE, 0, value),
    }
    made(draft)
}

/// Types with parts, and whether the last of them is the deep one.
const TYPES: [(u8, bool); 15] = [
    (35, false),
    (36, false),
    (37, false),
    (38, false),
    (39, false),
    (42, false),
    (43, false),
    (44, false),
    (45, false),
    (46, false),
    (47, false),
    (40, false),
    (40, true),
    (41, false),
    (41, true),
];
const CONDITIONS: [(u8, bool); 5] = [
    (50, false),
    (50, true),
    (51, false),
    (51, true),
    (52, false),
];

/// Row 7: depths next to the limit, of each type in a declaration, a newtype and a field,
/// and of each condition.
fn depth(mut i: usize) -> (Vec<u8>, Vec<u8>) {
    let depth = DEPTH_LIMIT - 8 + take(&mut i, 12);
    let mut draft = Draft::new();
    let field = |draft: &mut Draft| {
        draft.head(sub::HEAD_MESSAGE);
        draft.field(b"f", 0);
    };
    if i >= 3 * TYPES.len() {
        field(&mut draft);
        draft.u8_type();
        let leaf = |draft: &mut Draft| {
            draft.add(kind::CMP, 0);
            draft.add(kind::OPERAND, 0);
        };
        let wrapper = CONDITIONS[i - 3 * TYPES.len()];
        nested(&mut draft, depth, wrapper, wrapper.0 != kind::NOT, leaf);
        return made(draft);
    }
    let place = take(&mut i, 3);
    match place {
        0 => {
            draft.named(kind::DECLARATION, sub::NEWTYPE, b"N");
        }
        1 => draft.head(sub::HEAD_NEWTYPE),
        _ => field(&mut draft),
    }
    let has_two = (kind::MAP..=kind::RESULT).contains(&TYPES[i].0);
    nested(&mut draft, depth, TYPES[i], has_two, Draft::u8_type);
    if place == 0 {
        draft.head(sub::HEAD_MESSAGE);
    }
    made(draft)
}

/// A leaf at this depth, under records of the wrapper's kind.
fn nested(
    draft: &mut Draft,
    depth: usize,
    (kind, is_last): (u8, bool),
    has_two: bool,
    leaf: fn(&mut Draft),
) {
    for _ in 1..depth {
        draft.add(kind, 0);
        if has_two && is_last {
            leaf(draft);
        }
    }
    leaf(draft);
    if has_two && !is_last {
        (1..depth).for_each(|_| leaf(draft));
    }
}

/// Kind and sub of the records of a union that has every kind but 16.
const EVERY_KIND: [(u8, u8); 49] = [
    (1, 0),
    (1, 4),
    (30, 1),
    (2, 0),
    (3, 0),
    (10, 3),
    (15, 0),
    (14, 0),
    (12, 0),
    (13, 0),
    (11, 0),
    (20, 0),
    (21, 0),
    (21, 5),
    (40, 0),
    (33, 0),
    (41, 0),
    (34, 0),
    (35, 0),
    (36, 0),
    (37, 0),
    (38, 0),
    (39, 0),
    (42, 0),
    (43, 0),
    (44, 0),
    (45, 0),
    (46, 0),
    (47, 0),
    (48, 0),
    (22, 0),
    (22, 0),
    (50, 0),
    (51, 0),
    (52, 0),
    (53, 5),
    (60, 0),
    (54, 1),
    (60, 1),
    (60, 2),
    (55, 0),
    (60, 5),
    (11, 0),
    (31, 0),
    (56, 0),
    (60, 3),
    (60, 4),
    (14, 0),
    (15, 0),
];

/// Row 6: each beginning of a sheet of every kind, and it with that one record left out.
fn early_end(mut i: usize) -> (Vec<u8>, Vec<u8>) {
    let is_left_out = take(&mut i, 2) == 1;
    let mut draft = Draft::new();
    for (at, (kind, sub)) in EVERY_KIND.into_iter().enumerate() {
        draft.named(kind, sub, &[b'a', at as u8]);
    }
    if is_left_out {
        draft.records.remove(i);
    } else {
        draft.records.truncate(i);
    }
    made(draft)
}

/// Rows 3 to 6, each at every record.
fn fault_anywhere(mut i: usize) -> (Vec<u8>, Vec<u8>) {
    let fault = take(&mut i, 6);
    let (records, at) = if i < FEW {
        (FEW, i)
    } else {
        (RECORDS, RECORDS - LAST + i - FEW)
    };
    let mut draft = message(records);
    let record = &mut draft.records[at];
    match fault {
        0 => record.byte3 = 1,
        1 => record.kind = 9,
        2 => (record.kind, record.sub) = (kind::HEAD, 5),
        3 => (record.kind, record.name_len) = (kind::FIELD, 255),
        4 => (record.kind, record.value) = (kind::TOMBSTONE, 1 << 32),
        _ => record.kind = kind::ARGUMENT,
    }
    made(draft)
}

/// Rows 3 to 6 in every choice at one record, a field, with every choice at a later one or
/// at the one before, and with a second declaration, or depth 65, before it.
fn several_faults(mut i: usize) -> (Vec<u8>, Vec<u8>) {
    let mut draft = Draft::new();
    draft.named(kind::DECLARATION, sub::MESSAGE, b"A");
    draft.named(kind::DECLARATION, sub::MESSAGE, b"B");
    let before = take(&mut i, 3);
    if before == 1 {
        draft.named(kind::DECLARATION, sub::CONFIG, b"A");
    }
    draft.head(sub::HEAD_MESSAGE);
    for name in [b"f", b"g"] {
        draft.field(name, 0);
        let optionals = if before == 2 { DEPTH_LIMIT } else { 1 };
        (0..optionals).for_each(|_| draft.valued(kind::OPTIONAL, 0, 0));
        draft.u8_type();
    }
    let at = draft.records.iter().position(|r| r.kind == kind::FIELD);
    let at = at.unwrap_or(0);
    faults(&mut draft.records[at], take(&mut i, 16));
    faults(&mut draft.records[at - 1], i);
    made(draft)
}

/// Byte 3, the name part, the ordinal, the kind: those that the bits of `which` choose.
fn faults(record: &mut Record, which: usize) {
    if which & 1 != 0 {
        record.byte3 = 255;
    }
    if which & 2 != 0 {
        record.name_offset = u32::MAX;
    }
    if which & 4 != 0 {
        record.value = 1 << 32;
    }
    if which & 8 != 0 {
        record.kind = kind::VARIANT;
    }
}

/// Row 8: the first name again at every later place, and every name again at the last one.
fn second_declaration(mut i: usize) -> (Vec<u8>, Vec<u8>) {
    let of_first = take(&mut i, 2) == 1;
    let (records, at) = if i < FEW - 2 {
        (FEW, i)
    } else {
        (RECORDS, RECORDS - LAST + i - FEW)
    };
    let (old, new) = if of_first {
        (0, at + 1)
    } else {
        (at, records - 2)
    };
    let mut draft = Draft::new();
    for at in 0..records - 1 {
        let name = if at == new { old } else { at } as u16;
        let sub = if at == new { sub::CONST } else { sub::MESSAGE };
        draft.named(kind::DECLARATION, sub, &name.to_le_bytes());
    }
    draft.head(sub::HEAD_MESSAGE);
    made(draft)
}

/// Row 9: chains of newtypes that end, that are rings, that lead into a ring of one, and
/// that lead back to the middle.
fn chain(mut i: usize) -> (Vec<u8>, Vec<u8>) {
    let sort = take(&mut i, 4);
    let last = if i < FEW {
        i
    } else {
        NEWTYPES - LAST + i - FEW
    };
    let mut draft = Draft::new();
    for at in 0..=last {
        let next = match sort {
            _ if at < last => at + 1,
            0 => usize::from(u16::MAX),
            1 => 0,
            2 => last,
            _ => last / 2,
        };
        draft.named(kind::DECLARATION, sub::NEWTYPE, &(at as u16).to_le_bytes());
        draft.named(kind::NAMED, 0, &(next as u16).to_le_bytes());
    }
    draft.head(sub::HEAD_MESSAGE);
    made(draft)
}
