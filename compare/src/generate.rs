//! Sheets and names texts to compare on, repeatable from a seed, in named families.

mod chains;
mod damage;
mod full;
mod maker;
pub mod small;

use crate::draft::Draft;
use crate::format::{kind, sub, DEPTH_LIMIT, NAMES_LIMIT, RECORD};
use crate::random::Random;
use chains::{keys, rings};
use full::full_sheets;
use maker::Maker;

pub use maker::fill_unused;

#[derive(Debug, Clone)]
pub struct Case {
    pub family: &'static str,
    pub sheet: Vec<u8>,
    pub names: Vec<u8>,
}

/// A family: its name, how many of 1,000 cases are its, and how it makes one.
struct Family {
    name: &'static str,
    share: u64,
    make: fn(&mut Maker),
}

const fn family(name: &'static str, share: u64, make: fn(&mut Maker)) -> Family {
    Family { name, share, make }
}

/// Families whose sheets are good; some hold a fault that a sheet's shape brings with it.
const GROWN: [Family; 17] = [
    family("messages", 95, messages),
    family("types", 70, types),
    family("annotations", 65, annotations),
    family("conditions", 70, conditions),
    family("lengths", 20, lengths),
    family("enums", 50, enums),
    family("flags", 30, flags),
    family("unions", 75, unions),
    family("newtypes", 45, newtypes),
    family("keys", 60, keys),
    family("bit names", 25, bit_names),
    family("long and empty names", 25, long_names),
    family("names that are not UTF-8", 20, bytes_as_names),
    family("depths", 35, depths),
    family("full sheets", 5, full_sheets),
    family("rings", 35, rings),
    family("limits of length", 5, limits_of_length),
];

/// Families made of a good sheet of another family, by their share of 1,000.
const FAULTY: u64 = 110;
const SEVERAL: u64 = 40;
const DAMAGED: u64 = 100;

/// Case `i` of a seed. Any 1,000 consecutive cases hold each family by its share.
pub fn case(seed: u64, i: u64) -> Case {
    let mut random = Random::new(seed, i);
    // 617 and 1,000 have no common factor: the families alternate.
    let mut turn = i % 1000 * 617 % 1000;
    for family in &GROWN {
        if turn < family.share {
            return grown(family, random);
        }
        turn -= family.share;
    }
    let good = good_draft(&mut random);
    if turn < FAULTY {
        return faulty("one fault", good, 1, random);
    }
    if turn < FAULTY + SEVERAL {
        let count = random.between(2, 4);
        return faulty("several faults", good, count, random);
    }
    if turn < FAULTY + SEVERAL + DAMAGED {
        let (sheet, names) = damage::damaged(good.sheet(), good.names, &mut random);
        return Case {
            family: "damaged copies",
            sheet,
            names,
        };
    }
    let (sheet, names) = damage::soup(&mut random);
    Case {
        family: "any records",
        sheet,
        names,
    }
}

fn grown(family: &Family, random: Random) -> Case {
    let mut maker = Maker::new(random);
    (family.make)(&mut maker);
    if maker.random.chance(50) {
        maker.noise();
    }
    let (mut sheet, mut names) = (maker.draft.sheet(), maker.draft.names);
    if family.name == "limits of length" {
        to_a_limit(&mut sheet, &mut names, &mut maker.random);
    }
    Case {
        family: family.name,
        sheet,
        names,
    }
}

/// A good sheet of one of the first twelve families.
fn good_draft(random: &mut Random) -> Draft {
    let family = &GROWN[random.below(12)];
    let mut maker = Maker::new(Random::new(random.next(), 0));
    (family.make)(&mut maker);
    if maker.random.chance(50) {
        maker.noise();
    }
    maker.draft
}

fn faulty(family: &'static str, mut draft: Draft, count: usize, mut random: Random) -> Case {
    for _ in 0..count {
        damage::fault(&mut draft, &mut random);
    }
    Case {
        family,
        sheet: draft.sheet(),
        names: draft.names,
    }
}

// ---------------------------------------------------------------------------
// The families
// ---------------------------------------------------------------------------

fn messages(maker: &mut Maker) {
    maker.context(5);
    maker.head(sub::HEAD_MESSAGE);
    for _ in 0..maker.item_count() {
        maker.field_item();
    }
}

/// A head with a field list: a message, or a union with one variant open.
fn field_list(maker: &mut Maker) {
    if maker.random.chance(80) {
        return maker.head(sub::HEAD_MESSAGE);
    }
    maker.head(sub::HEAD_UNION);
    maker.named(kind::VARIANT, 0, b"v");
}

fn types(maker: &mut Maker) {
    maker.context(10);
    field_list(maker);
    for _ in 0..maker.random.between(1, 4) {
        maker.field_record();
        let depth = maker.random.between(1, 6);
        maker.ty(depth);
    }
}

fn annotations(maker: &mut Maker) {
    field_list(maker);
    for _ in 0..maker.random.between(1, 3) {
        maker.field_record();
        maker.annotations(7);
        let depth = maker.random.between(1, 2);
        maker.ty(depth);
    }
}

fn conditions(maker: &mut Maker) {
    maker.context(6);
    field_list(maker);
    for _ in 0..maker.random.between(1, 3) {
        maker.field_record();
        maker.optionals();
        maker.ty(2);
        let depth = maker.random.between(2, 6);
        maker.condition(depth);
    }
}

/// `len()` of types of every kind, plain and in optionals, around parts with and without a length.
fn lengths(maker: &mut Maker) {
    maker.context(3);
    field_list(maker);
    for _ in 0..maker.random.between(1, 3) {
        maker.field_record();
        maker.optionals();
        maker.type_around_lengths();
        if maker.random.chance(20) {
            maker.add(kind::NOT, 0);
        }
        let of_length = *maker.random.pick(&[kind::LEN_CMP, kind::LEN_RANGE]);
        maker.condition_of(of_length, 2);
    }
}

fn enums(maker: &mut Maker) {
    maker.context(1);
    maker.head(sub::HEAD_ENUM);
    if maker.random.chance(75) {
        let backing = maker.random.below(4) as u8;
        maker.add(kind::BACKING, backing);
    }
    for _ in 0..maker.item_count() {
        maker.variant_item();
    }
}

fn flags(maker: &mut Maker) {
    maker.context(1);
    maker.head(sub::HEAD_FLAGS);
    for _ in 0..maker.item_count() {
        maker.variant_item();
    }
}

fn unions(maker: &mut Maker) {
    maker.context(3);
    maker.head(sub::HEAD_UNION);
    for _ in 0..maker.item_count() {
        if maker.variant_item() && maker.len() < 900 {
            let fields = *maker.random.pick(&[0, 0, 1, 1, 2, 3]);
            (0..fields).for_each(|_| maker.field_item());
        }
    }
}

fn newtypes(maker: &mut Maker) {
    maker.context(8);
    maker.head(sub::HEAD_NEWTYPE);
    if maker.random.chance(70) {
        maker.type_record(kind::NAMED);
    } else {
        maker.ty(4);
    }
}

fn bit_names(maker: &mut Maker) {
    maker.head(sub::HEAD_MESSAGE);
    for _ in 0..maker.random.between(1, 2) {
        maker.field_record();
        maker.type_record(kind::BITS);
        for _ in 0..maker.random.between(0, 6) {
            maker.bit_name();
        }
    }
}

/// Names of 0, 254 and 255 bytes that lie over each other.
fn long_names(maker: &mut Maker) {
    let letter = *maker.random.pick(b"ab_A");
    maker.overlapping = true;
    for len in [0, 1, 127, 254, 255] {
        maker.pool.push(vec![letter; len]);
    }
    let mut near = vec![letter; 255];
    near[254] = b'z';
    maker.pool.push(near);
    messages(maker);
}

/// Names with bytes from 128 on, whole or cut through a letter.
fn bytes_as_names(maker: &mut Maker) {
    for name in [
        &b"\xff"[..],
        b"\xc3",
        b"\xa9",
        b"a\xff",
        b"limit\x80",
        b"\xed\xa0\x80",
        b"\xc3\xa9",
    ] {
        maker.pool.push(name.to_vec());
    }
    maker.random.shuffle(&mut maker.pool);
    let make = *maker.random.pick(&[
        messages,
        types,
        annotations,
        conditions,
        unions,
        newtypes,
        bits,
    ]);
    make(maker);
}

/// A bit name of any two bytes.
fn bits(maker: &mut Maker) {
    bit_names(maker);
    let name = [maker.random.byte(), maker.random.byte()];
    maker.named(kind::BIT_NAME, 0, &name);
}

/// Types and conditions nested to depth 64 and thereabouts.
fn depths(maker: &mut Maker) {
    let accepted = maker.random.chance(60);
    let depth = if accepted {
        maker.great_depth()
    } else {
        DEPTH_LIMIT + 1
    };
    match maker.random.below(9) {
        0 => {
            // A record of any kind where a part of depth 65 is due.
            maker.head(sub::HEAD_NEWTYPE);
            maker.wrappers(DEPTH_LIMIT);
            let kind = *maker.random.pick(&kind::ALL);
            maker.add(kind, 0);
        }
        1 | 2 => {
            maker.named(kind::DECLARATION, sub::NEWTYPE, b"N");
            maker.deep_type(depth);
            messages(maker);
        }
        3 | 4 => {
            maker.head(sub::HEAD_NEWTYPE);
            maker.deep_type(depth);
        }
        5 | 6 => {
            field_list(maker);
            maker.field_record();
            maker.deep_type(depth);
            if maker.random.chance(50) {
                maker.deep_condition(DEPTH_LIMIT);
            }
        }
        _ => {
            field_list(maker);
            maker.field_record();
            maker.ty(3);
            maker.deep_condition(depth);
        }
    }
    if maker.random.chance(15) {
        let len = maker.random.between(1, maker.len());
        maker.draft.records.truncate(len);
    }
}

/// A message that is filled up to a limit later.
fn limits_of_length(maker: &mut Maker) {
    maker.head(sub::HEAD_MESSAGE);
    for _ in 0..maker.random.below(4) {
        maker.field_record();
        maker.leaf();
    }
}

/// Brings the sheet or the names text to a length next to a limit.
fn to_a_limit(sheet: &mut Vec<u8>, names: &mut Vec<u8>, random: &mut Random) {
    let lengths = [0, 31, 32, 33, 64, 32736, 32767, 32768, 32769, 32800];
    if random.chance(70) {
        let tombstone = sheet_of_tombstones(random);
        let len = *random.pick(&lengths);
        while sheet.len() < len {
            sheet.extend_from_slice(&tombstone);
        }
        sheet.truncate(len);
    }
    if random.chance(70) {
        let len = *random.pick(&[0, NAMES_LIMIT - 1, NAMES_LIMIT, NAMES_LIMIT + 1]);
        names.resize(len, b'n');
    }
    let at_the_end = [255u32, 1, 0][random.below(3)];
    if random.chance(50) && sheet.len() >= RECORD && names.len() >= 255 {
        // The head's name ends with the names text.
        sheet[2] = at_the_end as u8;
        sheet[4..8].copy_from_slice(&(names.len() as u32 - at_the_end).to_le_bytes());
    }
}

fn sheet_of_tombstones(random: &mut Random) -> Vec<u8> {
    let mut draft = Draft::new();
    draft.valued(kind::FIELD_TOMBSTONE, random.byte(), random.below(5) as u64);
    draft.sheet()
}
