//! Every small body. What small means stands at each block below.

use crate::draft::Draft;
use crate::format::{condition_parts, has_name, kind, sub, type_parts};
use crate::generate::Case;

/// A block of cases, numbered from 0.
struct Block {
    name: &'static str,
    count: u64,
    make: fn(u64) -> Draft,
}

const BLOCKS: [Block; 12] = [
    Block {
        name: "small messages",
        count: sequences(10, 4),
        make: message,
    },
    Block {
        name: "small enums",
        count: 5 * sequences(12, 3),
        make: enum_body,
    },
    Block {
        name: "small flags",
        count: sequences(8, 4),
        make: flags,
    },
    Block {
        name: "small unions",
        count: sequences(10, 4),
        make: union,
    },
    Block {
        name: "small types",
        count: 4 * TYPES,
        make: field_or_newtype,
    },
    Block {
        name: "small bit names",
        count: 2 * (256 + LETTERS),
        make: bit_name,
    },
    Block {
        name: "small annotations",
        count: SHORT_TYPES * sequences(13, 2),
        make: annotations,
    },
    Block {
        name: "small conditions",
        count: 2 * SHORT_TYPES * CONDITIONS,
        make: condition,
    },
    Block {
        name: "small joins",
        count: 2 * JOINED * JOINED * 6,
        make: join,
    },
    Block {
        name: "small sheets",
        count: 41 * sequences(47, 2),
        make: records,
    },
    Block {
        name: "every kind and sub",
        count: 256 * 256,
        make: any_kind_and_sub,
    },
    Block {
        name: "small names and values",
        count: 40 * 14 * 8 * 4,
        make: name_and_value,
    },
];

/// How many cases there are.
pub fn count() -> u64 {
    BLOCKS.iter().map(|block| block.count).sum()
}

/// Case `i`, below `count()`.
pub fn case(i: u64) -> Case {
    let mut i = i;
    for block in &BLOCKS {
        if i < block.count {
            let draft = (block.make)(i);
            return Case {
                family: block.name,
                sheet: draft.sheet(),
                names: draft.names,
            };
        }
        i -= block.count;
    }
    Case {
        family: "none",
        sheet: Vec::new(),
        names: Vec::new(),
    }
}

/// Every small case in turn.
pub fn all() -> impl Iterator<Item = Case> {
    (0..count()).map(case)
}

// ---------------------------------------------------------------------------
// Counting
// ---------------------------------------------------------------------------

/// How many sequences of at most `most` of `letters` letters there are.
const fn sequences(letters: u64, most: u32) -> u64 {
    let mut sum = 0;
    let mut len = 0;
    while len <= most {
        sum += letters.pow(len);
        len += 1;
    }
    sum
}

/// Sequence `i` of these letters, the shorter first.
fn sequence(mut i: u64, letters: u64) -> Vec<u64> {
    let mut len = 0;
    while i >= letters.pow(len) {
        i -= letters.pow(len);
        len += 1;
    }
    (0..len).map(|_| take(&mut i, letters)).collect()
}

/// The last digit of `i` in this base, which is taken off.
fn take(i: &mut u64, base: u64) -> u64 {
    let digit = *i % base;
    *i /= base;
    digit
}

// ---------------------------------------------------------------------------
// Bodies
// ---------------------------------------------------------------------------

/// At most 4 items: fields a or b, or tombstones, at 0, 1 or 65536; an invariant.
fn message(i: u64) -> Draft {
    let mut draft = Draft::new();
    draft.head(sub::HEAD_MESSAGE);
    for letter in sequence(i, 10) {
        let ordinal = [0, 1, 65536][letter as usize % 3];
        match letter {
            0..=2 => field(&mut draft, b"a", ordinal),
            3..=5 => field(&mut draft, b"b", ordinal),
            6..=8 => draft.valued(kind::FIELD_TOMBSTONE, 0, ordinal),
            _ => draft.valued(kind::INVARIANT, 0, 0),
        }
    }
    draft
}

fn field(draft: &mut Draft, name: &[u8], ordinal: u64) {
    draft.field(name, ordinal);
    draft.u8_type();
}

/// No backing or any, and at most 3 variants or tombstones next to a limit.
fn enum_body(mut i: u64) -> Draft {
    let ordinals = [0, 255, 256, 65535, 65536, u64::from(u32::MAX)];
    let mut draft = Draft::new();
    draft.head(sub::HEAD_ENUM);
    let backing = take(&mut i, 5) as u8;
    if backing < 4 {
        draft.add(kind::BACKING, backing);
    }
    for letter in sequence(i, 12) {
        variant(&mut draft, letter >= 6, ordinals[letter as usize % 6]);
    }
    draft
}

/// At most 4 bits or tombstones at 0, 63, 64 or 2^32 - 1.
fn flags(i: u64) -> Draft {
    let mut draft = Draft::new();
    draft.head(sub::HEAD_FLAGS);
    for letter in sequence(i, 8) {
        let ordinal = [0, 63, 64, u64::from(u32::MAX)][letter as usize % 4];
        variant(&mut draft, letter >= 4, ordinal);
    }
    draft
}

fn variant(draft: &mut Draft, is_tombstone: bool, ordinal: u64) {
    if is_tombstone {
        draft.valued(kind::TOMBSTONE, 0, ordinal);
    } else {
        draft.variant(b"v", ordinal);
    }
}

/// At most 4 of: variants at 0, 1, 65536, tombstones at 0, 65536, and whatever may stand
/// in a variant, also where no variant is open.
fn union(i: u64) -> Draft {
    let mut draft = Draft::new();
    draft.head(sub::HEAD_UNION);
    for letter in sequence(i, 10) {
        match letter {
            0..=2 => variant(&mut draft, false, [0, 1, 65536][letter as usize]),
            3 | 4 => variant(&mut draft, true, [0, 65536][letter as usize - 3]),
            5 | 6 => field(&mut draft, b"a", letter - 5),
            7 | 8 => draft.valued(kind::FIELD_TOMBSTONE, 0, letter - 7),
            _ => draft.valued(kind::INVARIANT, 0, 0),
        }
    }
    draft
}

// ---------------------------------------------------------------------------
// Types
// ---------------------------------------------------------------------------

/// Types without parts: primitives, sub-byte, semantic, 15 names, qualified, bits.
const LEAVES: u64 = 14 + 1 + 6 + 15 + 1 + 4;
/// What stands before one part: 35 to 39, a fixed array of 0, 42 to 47.
const WRAPPERS: u64 = 12;
/// Leaves, wrapped leaves, twice wrapped leaves, maps and results of leaves.
const TYPES: u64 = LEAVES * (1 + WRAPPERS + WRAPPERS * WRAPPERS) + 2 * LEAVES * LEAVES;
/// Leaves, and what stands before one or two parts, with U8 as parts.
const SHORT_TYPES: u64 = LEAVES + WRAPPERS + 2;

const NAMES: [&[u8]; 15] = [
    b"D0",
    b"D1",
    b"D2",
    b"D3",
    b"D4",
    b"D5",
    b"D6",
    b"D7",
    b"D8",
    b"D9",
    b"Good",
    b"Far",
    b"Msg",
    b"Imported",
    b"Unknown",
];

/// Every sub declared, D4 a newtype of F32; newtypes of U8, of D4, of a message; an import.
fn context(draft: &mut Draft) {
    for sub in 0..10 {
        draft.named(kind::DECLARATION, sub, NAMES[usize::from(sub)]);
        if sub == sub::NEWTYPE {
            draft.add(kind::PRIMITIVE, sub::F32);
        }
    }
    draft.named(kind::DECLARATION, sub::NEWTYPE, b"Good");
    draft.u8_type();
    for (name, inner) in [(b"Far", b"D4"), (b"Msg", b"D0")] {
        draft.named(kind::DECLARATION, sub::NEWTYPE, name);
        draft.named(kind::NAMED, 0, inner);
    }
    draft.named(kind::IMPORT, 0, b"Imported");
}

fn leaf(draft: &mut Draft, i: u64) {
    match i {
        0..=13 => draft.valued(kind::PRIMITIVE, i as u8, 0),
        14 => draft.valued(kind::SUB_BYTE, 0, 0x103),
        15..=20 => draft.valued(kind::SEMANTIC, i as u8 - 15, 0),
        21..=35 => {
            draft.named(kind::NAMED, 0, NAMES[i as usize - 21]);
        }
        36 => {
            draft.named(kind::QUALIFIED, 0, b"ns.D5");
        }
        _ => {
            draft.add(kind::BITS, 0);
            let names: [&[&[u8]]; 4] = [&[], &[b"a"], &[b"A", b"b"], &[b"a", b"", b"b-"]];
            for name in names[i as usize - 37] {
                draft.named(kind::BIT_NAME, 0, name);
            }
        }
    }
}

fn wrapper(draft: &mut Draft, i: u64) {
    match i {
        0 => {
            draft.named(kind::GENERIC, 0, b"Unknown");
        }
        1 => draft.valued(kind::OPTIONAL, 0, 0),
        2 => draft.valued(kind::ARRAY, 0, 0),
        3 | 4 => draft.valued(kind::FIXED_ARRAY, 0, i - 3),
        5 => draft.valued(kind::SET, 0, 0),
        _ => draft.valued(kind::VEC2 + i as u8 - 6, 0, 0),
    }
}

fn ty(draft: &mut Draft, mut i: u64) {
    let pairs = 2 * LEAVES * LEAVES;
    if i < pairs {
        let kind = kind::MAP + take(&mut i, 2) as u8;
        draft.add(kind, 0);
        leaf(draft, take(&mut i, LEAVES));
        return leaf(draft, i);
    }
    i -= pairs;
    let last = take(&mut i, LEAVES);
    for letter in sequence(i, WRAPPERS) {
        wrapper(draft, letter);
    }
    leaf(draft, last);
}

fn short_type(draft: &mut Draft, i: u64) {
    if i < LEAVES {
        return leaf(draft, i);
    }
    if i < LEAVES + WRAPPERS {
        wrapper(draft, i - LEAVES);
        return draft.u8_type();
    }
    draft.add(kind::MAP + (i - LEAVES - WRAPPERS) as u8, 0);
    draft.u8_type();
    draft.u8_type();
}

/// Every type as a field's and as a newtype's, without and with a wildcard.
fn field_or_newtype(mut i: u64) -> Draft {
    let mut draft = Draft::new();
    context(&mut draft);
    if take(&mut i, 2) == 1 {
        draft.add(kind::WILDCARD, 0);
    }
    if take(&mut i, 2) == 1 {
        draft.head(sub::HEAD_NEWTYPE);
    } else {
        draft.head(sub::HEAD_MESSAGE);
        draft.field(b"f", 0);
    }
    ty(&mut draft, i);
    draft
}

/// The letters that UTF-8 writes with two bytes.
const LETTERS: u64 = 0x800 - 0x80;

/// Every byte, and every letter of two bytes, alone or after an `a`.
fn bit_name(mut i: u64) -> Draft {
    let mut name = Vec::new();
    if take(&mut i, 2) == 1 {
        name.push(b'a');
    }
    if i < 256 {
        name.push(i as u8);
    } else {
        let letter = char::from_u32((i - 256 + 0x80) as u32).unwrap_or('a');
        name.extend_from_slice(letter.to_string().as_bytes());
    }
    let mut draft = Draft::new();
    draft.head(sub::HEAD_MESSAGE);
    draft.field(b"f", 0);
    draft.add(kind::BITS, 0);
    draft.named(kind::BIT_NAME, 0, &name);
    draft
}

// ---------------------------------------------------------------------------
// Annotations and conditions
// ---------------------------------------------------------------------------

/// At most 2 of 13 annotations on each short type.
fn annotations(mut i: u64) -> Draft {
    let mut draft = Draft::new();
    context(&mut draft);
    draft.head(sub::HEAD_MESSAGE);
    draft.field(b"f", 0);
    let short = take(&mut i, SHORT_TYPES);
    for letter in sequence(i, 13) {
        annotation(&mut draft, letter);
    }
    short_type(&mut draft, short);
    draft
}

fn annotation(draft: &mut Draft, i: u64) {
    let names: [&[u8]; 13] = [
        b"varint",
        b"zigzag",
        b"delta",
        b"doc",
        b"other",
        b"deprecated",
        b"deprecated",
        b"limit",
        b"limit",
        b"limit",
        b"limit",
        b"limit",
        b"limit",
    ];
    draft.named(kind::ANNOTATION, 0, names[i as usize]);
    match i {
        6 => {
            draft.named(kind::ARGUMENT, 2, b"reason");
        }
        8 => draft.unkeyed(sub::ARGUMENT_INT, 0),
        9 => draft.unkeyed(sub::ARGUMENT_HEX, 16_777_216),
        10 => draft.unkeyed(sub::ARGUMENT_HEX, 16_777_217),
        11 => draft.named(kind::ARGUMENT, sub::ARGUMENT_INT, b"max").value = 0,
        12 => {
            draft.unkeyed(3, 0);
            draft.unkeyed(sub::ARGUMENT_INT, u64::MAX);
            draft.unkeyed(sub::ARGUMENT_INT, 0);
        }
        _ => {}
    }
}

/// Int, Float, String, Bool, Value, a known constant, an imported one, a message.
const OPERANDS: u64 = 8;
/// 6 comparisons and 2 ranges, of the value and of its length.
const CONDITIONS: u64 = 2 * (6 * OPERANDS + 2 * OPERANDS * OPERANDS);
/// Eq and Lt, a range and a length, each with 8 operands.
const JOINED: u64 = 4 * OPERANDS;

fn operand(draft: &mut Draft, i: u64) {
    match i {
        0..=4 => draft.valued(kind::OPERAND, i as u8, 1),
        _ => {
            let name = [&b"D7"[..], b"Imported", b"D0"][i as usize - 5];
            draft.named(kind::OPERAND, sub::OPERAND_CONST, name);
        }
    }
}

/// Every condition without parts, on each short type and on an optional of it.
fn condition(mut i: u64) -> Draft {
    let mut draft = Draft::new();
    context(&mut draft);
    draft.head(sub::HEAD_MESSAGE);
    draft.field(b"f", 0);
    if take(&mut i, 2) == 1 {
        draft.add(kind::OPTIONAL, 0);
    }
    let short = take(&mut i, SHORT_TYPES);
    short_type(&mut draft, short);
    let of_length = take(&mut i, 2) as u8 * 2;
    if i < 6 * OPERANDS {
        draft.add(kind::CMP + of_length, take(&mut i, 6) as u8);
        operand(&mut draft, i);
    } else {
        i -= 6 * OPERANDS;
        draft.add(kind::RANGE + of_length, take(&mut i, 2) as u8);
        operand(&mut draft, take(&mut i, OPERANDS));
        operand(&mut draft, i);
    }
    draft
}

/// And, and or of a not, of two conditions on U8, Bool, string, F64, array, set.
fn join(mut i: u64) -> Draft {
    let mut draft = Draft::new();
    context(&mut draft);
    draft.head(sub::HEAD_MESSAGE);
    draft.field(b"f", 0);
    let types = [(30, 1), (30, 0), (32, 0), (30, 10), (37, 0), (39, 0)];
    let (kind, sub) = types[take(&mut i, 6) as usize];
    draft.add(kind, sub);
    if type_parts(kind) == Some(1) {
        draft.u8_type();
    }
    let is_or = take(&mut i, 2) == 1;
    draft.add(if is_or { kind::OR } else { kind::AND }, 0);
    joined(&mut draft, take(&mut i, JOINED));
    if is_or {
        draft.add(kind::NOT, 0);
    }
    joined(&mut draft, i);
    draft
}

fn joined(draft: &mut Draft, mut i: u64) {
    let which = take(&mut i, 4) as usize;
    let kind = [kind::CMP, kind::CMP, kind::RANGE, kind::LEN_CMP][which];
    draft.add(kind, [sub::EQ, sub::LT, 0, sub::LT][which]);
    let (_, operands) = condition_parts(kind).unwrap_or((0, 0));
    (0..operands).for_each(|_| operand(draft, i));
}

// ---------------------------------------------------------------------------
// Sheets by their kinds
// ---------------------------------------------------------------------------

/// What stands before: one beginning for each state that the order of records knows.
const BEGINNINGS: [&[u8]; 41] = [
    &[],
    &[1],
    &[NEWTYPE],
    &[NEWTYPE, 36],
    &[NEWTYPE, 40],
    &[NEWTYPE, 30],
    &[NEWTYPE, 48],
    &[2],
    &[3],
    &[10],
    &[10, 12],
    &[10, 13],
    &[10, 11],
    &[10, 11, 20],
    &[10, 11, 20, 21],
    &[10, 11, 30],
    &[10, 11, 36],
    &[10, 11, 48],
    &[10, 11, 48, 22],
    &[10, 11, 40],
    &[10, 11, 40, 30],
    &[10, 11, 40, 48],
    &[10, 11, 30, 50],
    &[10, 11, 30, 50, 53, 60],
    &[10, 11, 30, 52],
    &[10, 11, 30, 53],
    &[10, 11, 30, 53, 60],
    &[10, 11, 30, 54, 60],
    &[ENUM],
    &[ENUM, 16],
    &[ENUM, 14],
    &[ENUM, 16, 15],
    &[FLAGS],
    &[FLAGS, 14],
    &[UNION],
    &[UNION, 14],
    &[UNION, 15],
    &[UNION, 14, 12],
    &[UNION, 14, 11, 30],
    &[NEWTYPE_HEAD],
    &[NEWTYPE_HEAD, 30],
];

// Letters for records with another sub than 0, and for an unknown kind.
const NEWTYPE: u8 = 200;
const ENUM: u8 = 201;
const FLAGS: u8 = 202;
const UNION: u8 = 203;
const NEWTYPE_HEAD: u8 = 204;
const CONSTANT: u8 = 205;
const UNKNOWN: u8 = 206;

/// At most 2 records of any kind after each beginning; every name is the empty one.
fn records(mut i: u64) -> Draft {
    let mut draft = Draft::new();
    let beginning = BEGINNINGS[take(&mut i, 41) as usize];
    beginning
        .iter()
        .for_each(|&letter| record(&mut draft, letter));
    for letter in sequence(i, 47) {
        let of_kind = kind::ALL.get(letter as usize).copied();
        record(
            &mut draft,
            of_kind.unwrap_or(NEWTYPE + (letter - 40) as u8 % 7),
        );
    }
    draft
}

fn record(draft: &mut Draft, letter: u8) {
    let (kind, sub) = match letter {
        NEWTYPE => (kind::DECLARATION, sub::NEWTYPE),
        ENUM..=NEWTYPE_HEAD => (kind::HEAD, letter - ENUM + 1),
        CONSTANT => (kind::OPERAND, sub::OPERAND_CONST),
        UNKNOWN => (9, 0),
        kind => (kind, 0),
    };
    if has_name(kind, sub) {
        draft.named(kind, sub, b"");
    } else {
        draft.add(kind, sub);
    }
}

/// One record of any kind and sub, known or not.
fn any_kind_and_sub(i: u64) -> Draft {
    let mut draft = Draft::new();
    draft.add((i >> 8) as u8, i as u8);
    draft
}

/// One record of each kind and sub, with a name part and a value next to their limits.
fn name_and_value(mut i: u64) -> Draft {
    let parts = [
        (0, 0),
        (1, 0),
        (2, 0),
        (0, 1),
        (0, 2),
        (1, 1),
        (u32::MAX, 0),
        (u32::MAX, 255),
    ];
    let values = [u64::from(u32::MAX), 1 << 32, (1 << 32) + 1, u64::MAX];
    let mut draft = Draft::new();
    draft.names = b"a".to_vec();
    let kind = kind::ALL[take(&mut i, 40) as usize];
    let record = draft.add(kind, take(&mut i, 14) as u8);
    (record.name_offset, record.name_len) = parts[take(&mut i, 8) as usize];
    record.value = values[i as usize];
    draft
}
