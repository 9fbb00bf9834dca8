//! The shapes of sheets that are measured: accepted sheets with UTF-8 names, of any number of records, repeatable from a seed.

use crate::draft::Draft;
use crate::format::{kind, sub, RECORD, SHEET_LIMIT};
use crate::random::Random;

/// The most records of a sheet.
pub const FULL: usize = SHEET_LIMIT / RECORD;

/// A shape: its name, how many records its sheet has at most, what it is, and how a sheet is made.
pub struct Shape {
    pub name: &'static str,
    pub records: usize,
    pub what: &'static str,
    make: fn(&mut Maker),
}

impl Shape {
    /// The sheet and the names text of a seed, of at most `most` records.
    pub fn sheet(&self, most: usize, seed: u64) -> (Vec<u8>, Vec<u8>) {
        let mut maker = Maker {
            draft: Draft::new(),
            random: Random::new(seed, 0),
            most,
        };
        (self.make)(&mut maker);
        (maker.draft.sheet(), maker.draft.names)
    }
}

const fn shape(
    name: &'static str,
    records: usize,
    make: fn(&mut Maker),
    what: &'static str,
) -> Shape {
    Shape {
        name,
        records,
        what,
        make,
    }
}

pub const SHAPES: [Shape; 19] = [
    shape("exercise", 50, exercise, "a message of a dozen fields"),
    shape("prefix", FULL, prefix, "511 fields, a common prefix"),
    shape("overlap", FULL, overlap, "511 names of 255 bytes"),
    shape("variants", FULL, variants, "1,022 variants of an enum"),
    shape("tombstones", FULL, tombstones, "510 and 256 fields"),
    shape(
        "declarations",
        FULL,
        declarations,
        "340, named by 340 fields",
    ),
    shape("chain", FULL, chain, "340 newtypes under 114 keys"),
    shape("union", FULL, union, "340 variants with a field"),
    shape("annotations", FULL, annotations, "faulty, of every kind"),
    shape("depth", FULL, depth, "types of depth 62"),
    shape("imports", FULL, imports, "1,000, and 11 fields"),
    shape("row", FULL, row, "300 annotations on a field"),
    shape("bits", FULL, bits, "1,000 bit names of a type"),
    shape(
        "optionals",
        FULL,
        optionals,
        "60 under each of 16 conditions",
    ),
    shape("context", FULL, context, "1,000 declarations, one field"),
    shape(
        "variant-fields",
        FULL,
        variant_fields,
        "16 in each of 31 variants",
    ),
    shape(
        "bare-variants",
        FULL,
        bare_variants,
        "1,022 variants of a union",
    ),
    shape("collisions", FULL, collisions, "511 names of one bucket"),
    shape("marks", FULL, marks, "1,022 ordinals of one mark"),
];

struct Maker {
    draft: Draft,
    random: Random,
    /// The most records.
    most: usize,
}

/// A part of the names text.
type Place = (u32, u8);

impl Maker {
    /// Whether that many more records fit.
    fn room(&self, records: usize) -> bool {
        self.draft.records.len() + records <= self.most
    }

    /// The numbers below `count` in some order.
    fn shuffled(&mut self, count: usize) -> Vec<usize> {
        let mut numbers: Vec<usize> = (0..count).collect();
        self.random.shuffle(&mut numbers);
        numbers
    }

    /// The numbers below `count`: upwards, downwards or shuffled.
    fn ordered(&mut self, count: usize) -> Vec<usize> {
        match self.random.below(3) {
            0 => (0..count).collect(),
            1 => (0..count).rev().collect(),
            _ => self.shuffled(count),
        }
    }

    fn head(&mut self, sub: u8) {
        self.draft.head(sub);
    }

    fn field(&mut self, name: &str, ordinal: usize) {
        self.draft.field(name.as_bytes(), ordinal as u64);
    }

    fn named(&mut self, kind: u8, sub: u8, name: &str) {
        self.draft.named(kind, sub, name.as_bytes());
    }

    fn named_at(&mut self, kind: u8, sub: u8, place: Place) {
        let record = self.draft.add(kind, sub);
        (record.name_offset, record.name_len) = place;
    }

    /// Puts a name at the end of the names text.
    fn place(&mut self, name: &str) -> Place {
        let offset = self.draft.names.len() as u32;
        self.draft.names.extend_from_slice(name.as_bytes());
        (offset, name.len() as u8)
    }

    /// A type of one record that breaks no rule.
    fn leaf(&mut self) {
        if self.random.chance(30) {
            let semantic = self.random.below(6) as u8;
            self.draft.add(kind::SEMANTIC, semantic);
        } else {
            let primitive = self.random.below(13) as u8;
            self.draft.add(kind::PRIMITIVE, primitive);
        }
    }

    fn annotation(&mut self, name: &str) {
        self.named(kind::ANNOTATION, 0, name);
    }
}

// ---------------------------------------------------------------------------
// The exercise
// ---------------------------------------------------------------------------

/// The dozen fields of the exercise.
const DOZEN: usize = 12;

/// A message as people write them: six records of context, a tombstone, a dozen fields with annotations, a map and conditions. A larger
/// sheet has further dozens.
fn exercise(maker: &mut Maker) {
    maker.named(kind::DECLARATION, sub::MESSAGE, "Address");
    maker.named(kind::DECLARATION, 1, "Colour");
    maker.named(kind::DECLARATION, sub::NEWTYPE, "UserId");
    maker.draft.add(kind::PRIMITIVE, sub::U64);
    maker.named(kind::DECLARATION, sub::CONST, "MAX_AGE");
    maker.named(kind::IMPORT, 0, "Money");
    maker.head(sub::HEAD_MESSAGE);
    maker.draft.valued(kind::FIELD_TOMBSTONE, 0, 60000);
    let mut ordinal = 0;
    loop {
        for which in maker.shuffled(DOZEN) {
            let len = maker.draft.records.len();
            exercise_field(maker, which, ordinal);
            if maker.draft.records.len() > maker.most {
                maker.draft.records.truncate(len);
                return;
            }
            ordinal += 1;
        }
    }
}

fn exercise_field(maker: &mut Maker, which: usize, ordinal: usize) {
    const NAMES: [&str; DOZEN] = [
        "id", "name", "age", "email", "address", "colour", "scores", "tags", "history", "rights",
        "old", "offset",
    ];
    let dozen = ordinal / DOZEN;
    let name = match dozen {
        0 => NAMES[which].to_string(),
        _ => format!("{}_{dozen}", NAMES[which]),
    };
    maker.field(&name, ordinal);
    match which {
        0 => maker.named(kind::NAMED, 0, "UserId"),
        1 => {
            maker.annotation("limit");
            maker.draft.unkeyed(sub::ARGUMENT_INT, 64);
            maker.draft.add(kind::SEMANTIC, sub::STRING);
            maker.draft.add(kind::LEN_CMP, 3);
            maker.draft.valued(kind::OPERAND, sub::OPERAND_INT, 0);
        }
        2 => {
            maker.annotation("varint");
            maker.draft.add(kind::PRIMITIVE, sub::U16);
            maker.draft.add(kind::RANGE, 0);
            maker.draft.valued(kind::OPERAND, sub::OPERAND_INT, 18);
            maker.named(kind::OPERAND, sub::OPERAND_CONST, "MAX_AGE");
        }
        3 => {
            maker.draft.add(kind::OPTIONAL, 0);
            maker.draft.add(kind::SEMANTIC, sub::STRING);
        }
        4 => maker.named(kind::NAMED, 0, "Address"),
        5 => maker.named(kind::NAMED, 0, "Colour"),
        6 => {
            maker.draft.add(kind::MAP, 0);
            maker.draft.add(kind::SEMANTIC, sub::STRING);
            maker.draft.add(kind::PRIMITIVE, sub::F32);
        }
        7 => {
            maker.draft.add(kind::SET, 0);
            maker.named(kind::NAMED, 0, "UserId");
        }
        8 => {
            maker.draft.add(kind::ARRAY, 0);
            maker.named(kind::NAMED, 0, "Money");
        }
        9 => {
            maker.draft.add(kind::BITS, 0);
            maker.named(kind::BIT_NAME, 0, "read");
            maker.named(kind::BIT_NAME, 0, "write");
        }
        10 => {
            maker.annotation("deprecated");
            maker.named(kind::ARGUMENT, 2, "reason");
            maker.draft.u8_type();
        }
        _ => {
            maker.annotation("delta");
            maker.draft.add(kind::PRIMITIVE, sub::I32);
        }
    }
}

// ---------------------------------------------------------------------------
// Bodies
// ---------------------------------------------------------------------------

/// Names of 32 bytes, of which 28 are the same in all.
fn prefix(maker: &mut Maker) {
    maker.head(sub::HEAD_MESSAGE);
    let count = (maker.most - 1) / 2;
    let ordinals = maker.ordered(count);
    for i in maker.ordered(count) {
        maker.field(&format!("the_prefix_that_is_the_same_{i:04}"), ordinals[i]);
        maker.leaf();
    }
}

/// Names of 31 bytes that the library's table cannot tell apart: it weighs the first eight, the eight in the middle and the last eight bytes, and
/// they differ in others alone.
fn collisions(maker: &mut Maker) {
    maker.head(sub::HEAD_MESSAGE);
    let count = (maker.most - 1) / 2;
    let ordinals = maker.ordered(count);
    for i in maker.ordered(count) {
        maker.field(
            &format!("the_same{i:03}_and_all_of_the_rest"),
            ordinals[i],
        );
        maker.leaf();
    }
}

/// Names of 255 bytes, the first 247 the same in all. The text is blocks of 254 letters `a` and one other byte, a different one in each; the
/// names start at the first eight places of a block.
fn overlap(maker: &mut Maker) {
    const SHIFTS: usize = 8;
    const NAME: usize = 255;
    maker.head(sub::HEAD_MESSAGE);
    let count = (maker.most - 1) / 2;
    let mut ends: Vec<u8> = (b'!'..b'a').collect();
    maker.random.shuffle(&mut ends);
    let start = maker.draft.names.len();
    for end in ends.iter().take(count.div_ceil(SHIFTS)) {
        maker.draft.names.extend_from_slice(&[b'a'; NAME - 1]);
        maker.draft.names.push(*end);
    }
    maker.draft.names.extend_from_slice(&[b'a'; SHIFTS - 1]);
    let ordinals = maker.ordered(count);
    for i in maker.ordered(count) {
        let offset = start + i / SHIFTS * NAME + i % SHIFTS;
        maker.named_at(kind::FIELD, 0, (offset as u32, NAME as u8));
        maker.draft.records.last_mut().unwrap().value = ordinals[i] as u64;
        maker.leaf();
    }
}

fn variants(maker: &mut Maker) {
    variants_in_steps(maker, 1);
}

/// Ordinals that the library's marks cannot tell apart: a mark is the remainder by 1,021.
fn marks(maker: &mut Maker) {
    variants_in_steps(maker, 1021);
}

/// Variants of an enum, their ordinals multiples of `step`.
fn variants_in_steps(maker: &mut Maker, step: usize) {
    maker.head(sub::HEAD_ENUM);
    let backing = maker.random.between(1, 3) as u8;
    maker.draft.add(kind::BACKING, backing);
    let count = maker.most - 2;
    let ordinals = maker.ordered(count);
    for i in 0..count {
        let name = format!("variant_{i}");
        maker.draft.variant(name.as_bytes(), (ordinals[i] * step) as u64);
    }
}

/// Tombstones before, after or between the fields, of which one in sixteen is tombstoned.
fn tombstones(maker: &mut Maker) {
    maker.head(sub::HEAD_MESSAGE);
    let gone = (maker.most - 1) * 510 / 1022;
    let fields = (maker.most - 1 - gone) / 2;
    let mut items: Vec<usize> = (0..gone + fields).collect();
    match maker.random.below(3) {
        0 => {}
        1 => items.rotate_left(gone),
        _ => maker.random.shuffle(&mut items),
    }
    for item in items {
        if item < gone {
            maker.draft.valued(kind::FIELD_TOMBSTONE, 0, item as u64);
            continue;
        }
        let tombstoned = maker.random.below(16) == 0;
        let ordinal = if tombstoned { item - gone } else { item };
        maker.field(&format!("field_{item}"), ordinal);
        maker.leaf();
    }
}

/// Each declaration is named by one field, by the same part of the names text or by another with the same bytes.
fn declarations(maker: &mut Maker) {
    let count = (maker.most - 2) / 3;
    let shared = maker.random.chance(50);
    let names: Vec<String> = (0..count).map(|i| format!("Declaration_{i:03}")).collect();
    let mut places = Vec::new();
    for name in &names {
        let place = maker.place(name);
        places.push(place);
        let kinds = [sub::MESSAGE, 1, 2, sub::UNION, sub::CONFIG];
        let sub = *maker.random.pick(&kinds);
        maker.named_at(kind::DECLARATION, sub, place);
    }
    maker.head(sub::HEAD_MESSAGE);
    for (ordinal, i) in maker.ordered(count).into_iter().enumerate() {
        maker.field(&format!("f{ordinal}"), ordinal);
        if shared {
            maker.named_at(kind::NAMED, 0, places[i]);
        } else {
            maker.named(kind::NAMED, 0, &names[i]);
        }
    }
}

/// A chain of newtypes that ends at a good or a bad key, and sets of its first.
fn chain(maker: &mut Maker) {
    let length = (maker.most - 1) / 3 - 1;
    for i in maker.ordered(length) {
        maker.named(kind::DECLARATION, sub::NEWTYPE, &format!("N{i}"));
        if i + 1 < length {
            maker.named(kind::NAMED, 0, &format!("N{}", i + 1));
        } else {
            let last = *maker.random.pick(&[sub::U8, sub::F32]);
            maker.draft.add(kind::PRIMITIVE, last);
        }
    }
    maker.head(sub::HEAD_MESSAGE);
    let mut ordinal = 0;
    while maker.room(3) {
        maker.field(&format!("f{ordinal}"), ordinal);
        maker.draft.add(kind::SET, 0);
        maker.named(kind::NAMED, 0, "N0");
        ordinal += 1;
    }
}

fn union(maker: &mut Maker) {
    maker.head(sub::HEAD_UNION);
    let count = (maker.most - 2) / 3;
    let ordinals = maker.ordered(count);
    for i in 0..count {
        let name = format!("Variant_{i}");
        maker.draft.variant(name.as_bytes(), ordinals[i] as u64);
        maker.field("value", 0);
        maker.leaf();
    }
}

/// Variants of a union without fields.
fn bare_variants(maker: &mut Maker) {
    maker.head(sub::HEAD_UNION);
    let count = maker.most - 2;
    let ordinals = maker.ordered(count);
    for i in 0..count {
        let name = format!("Variant_{i}");
        maker.draft.variant(name.as_bytes(), ordinals[i] as u64);
    }
}

/// Variants with sixteen fields each.
fn variant_fields(maker: &mut Maker) {
    maker.head(sub::HEAD_UNION);
    let mut ordinal = 0;
    while maker.room(1 + 2 * 16) {
        let name = format!("Variant_{ordinal}");
        maker.draft.variant(name.as_bytes(), ordinal);
        for i in maker.shuffled(16) {
            maker.field(&format!("field_{i}"), i);
            maker.leaf();
        }
        ordinal += 1;
    }
}

// ---------------------------------------------------------------------------
// A field's parts
// ---------------------------------------------------------------------------

/// Fields of Bool with annotations that are off their type, faulty in themselves, and repeated.
fn annotations(maker: &mut Maker) {
    maker.head(sub::HEAD_MESSAGE);
    let mut ordinal = 0;
    while maker.room(13) {
        maker.field(&format!("f{ordinal}"), ordinal);
        for which in maker.shuffled(7) {
            match which {
                0 => maker.annotation("varint"),
                1 => maker.annotation("zigzag"),
                2 => maker.annotation("delta"),
                3 | 4 => {
                    maker.annotation("limit");
                    let limit = *maker.random.pick(&[0, 16777217]);
                    maker.draft.unkeyed(sub::ARGUMENT_INT, limit);
                }
                5 => maker.annotation("deprecated"),
                _ => {
                    maker.annotation("deprecated");
                    maker.named(kind::ARGUMENT, 2, "reason");
                }
            }
        }
        if maker.random.chance(50) {
            maker.draft.add(kind::PRIMITIVE, sub::BOOL);
        } else {
            maker.draft.add(kind::SEMANTIC, sub::STRING);
        }
        ordinal += 1;
    }
}

/// Fields with 300 annotations of other words, each word met twice.
fn row(maker: &mut Maker) {
    const ROW: usize = 300;
    maker.head(sub::HEAD_MESSAGE);
    let mut ordinal = 0;
    while maker.room(3) {
        maker.field(&format!("f{ordinal}"), ordinal);
        let count = ROW.min(maker.most - maker.draft.records.len() - 1);
        for i in maker.ordered(count) {
            maker.annotation(&format!("word_{}", i / 2));
        }
        maker.leaf();
        ordinal += 1;
    }
}

/// One field of bit names.
fn bits(maker: &mut Maker) {
    maker.head(sub::HEAD_MESSAGE);
    maker.field("f", 0);
    maker.draft.add(kind::BITS, 0);
    while maker.room(1) {
        let name = format!("bit_{}", maker.draft.records.len());
        maker.named(kind::BIT_NAME, 0, &name);
    }
}

/// Types of depth 62.
fn depth(maker: &mut Maker) {
    maker.head(sub::HEAD_MESSAGE);
    let mut ordinal = 0;
    while maker.room(63) {
        maker.field(&format!("f{ordinal}"), ordinal);
        for _ in 0..61 {
            let kinds = [kind::OPTIONAL, kind::ARRAY, kind::FIXED_ARRAY];
            let kind = *maker.random.pick(&kinds);
            maker.draft.valued(kind, 0, 3);
        }
        maker.leaf();
        ordinal += 1;
    }
}

/// Fields of 60 optionals with a comparison; the last one has as many optionals as fit.
fn optionals(maker: &mut Maker) {
    maker.head(sub::HEAD_MESSAGE);
    let mut ordinal = 0;
    while maker.room(5) {
        maker.field(&format!("f{ordinal}"), ordinal);
        let count = 60.min(maker.most - maker.draft.records.len() - 3);
        for _ in 0..count {
            maker.draft.add(kind::OPTIONAL, 0);
        }
        maker.leaf();
        let operator = maker.random.below(6) as u8;
        maker.draft.add(kind::CMP, operator);
        maker.draft.valued(kind::OPERAND, sub::OPERAND_INT, 1);
        ordinal += 1;
    }
}

// ---------------------------------------------------------------------------
// Contexts
// ---------------------------------------------------------------------------

/// Imports, and fields that name some of them.
fn imports(maker: &mut Maker) {
    let count = maker.most * 1000 / FULL;
    for i in maker.ordered(count) {
        maker.named(kind::IMPORT, 0, &format!("Import_{i}"));
    }
    maker.head(sub::HEAD_MESSAGE);
    let mut ordinal = 0;
    while maker.room(2) {
        maker.field(&format!("f{ordinal}"), ordinal);
        let name = format!("Import_{}", maker.random.below(count));
        maker.named(kind::NAMED, 0, &name);
        ordinal += 1;
    }
}

/// Declarations, and a body of two records.
fn context(maker: &mut Maker) {
    let count = maker.most * 1000 / FULL;
    for i in maker.ordered(count) {
        let kinds = [sub::MESSAGE, 1, 2, sub::UNION, sub::CONFIG];
        let sub = *maker.random.pick(&kinds);
        maker.named(kind::DECLARATION, sub, &format!("Declared_{i}"));
    }
    maker.head(sub::HEAD_MESSAGE);
    maker.field("f", 0);
    maker.named(kind::NAMED, 0, "Declared_0");
}
