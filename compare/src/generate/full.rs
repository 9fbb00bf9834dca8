//! Sheets of more than 900 records.

use super::maker::Maker;
use crate::format::{kind, sub, RECORD, SHEET_LIMIT};

/// A sheet of 901 to 1,024 records.
pub fn full_sheets(maker: &mut Maker) {
    let most = SHEET_LIMIT / RECORD;
    let count = *maker.random.pick(&[901, 950, most - 1, most, most]);
    match maker.random.below(8) {
        0 => full_list(maker, count),
        1 => full_variants(maker, count),
        2 => full_union(maker, count),
        3 => full_chain(maker, count),
        4 => full_annotations(maker, count),
        5 => full_imports(maker, count),
        6 => full_list_of_violations(maker, count),
        _ => full_mixture(maker, count),
    }
}

/// Many fields with few or many distinct names and ordinals.
fn full_list(maker: &mut Maker, count: usize) {
    maker.overlapping = false;
    maker.head(sub::HEAD_MESSAGE);
    let distinct = *maker.random.pick(&[3, 200, 2000, 70000]);
    while maker.len() + 2 <= count {
        let ordinal = maker.random.below(distinct);
        if maker.random.chance(10) {
            maker.add(kind::FIELD_TOMBSTONE, 0).value = ordinal as u64;
        } else {
            let name = format!("f{}", maker.random.below(distinct));
            maker.named(kind::FIELD, 0, name.as_bytes()).value = ordinal as u64;
            maker.leaf();
        }
    }
}

fn full_variants(maker: &mut Maker, count: usize) {
    let head = *maker
        .random
        .pick(&[sub::HEAD_ENUM, sub::HEAD_FLAGS, sub::HEAD_UNION]);
    maker.head(head);
    if head == sub::HEAD_ENUM {
        maker.add(kind::BACKING, 0);
    }
    let distinct = *maker.random.pick(&[3, 64, 2000, 70000]);
    while maker.len() < count {
        let ordinal = maker.random.below(distinct) as u64;
        let kind = if maker.random.chance(10) {
            kind::TOMBSTONE
        } else {
            kind::VARIANT
        };
        if kind == kind::VARIANT {
            maker.named(kind, 0, b"v").value = ordinal;
        } else {
            maker.add(kind, 0).value = ordinal;
        }
    }
}

fn full_union(maker: &mut Maker, count: usize) {
    maker.head(sub::HEAD_UNION);
    while maker.len() + 60 < count {
        if maker.variant_item() {
            for _ in 0..maker.random.below(5) {
                maker.field_record();
                maker.ty(2);
            }
        }
    }
    while maker.len() < count {
        maker.variant_item();
    }
}

/// A chain of newtypes through a third of the sheet, and keys of it.
fn full_chain(maker: &mut Maker, count: usize) {
    maker.overlapping = false;
    let length = count / 3;
    let ends_bad = maker.random.chance(50);
    let mut order: Vec<usize> = (0..length).collect();
    if maker.random.chance(50) {
        maker.random.shuffle(&mut order);
    }
    for i in order {
        maker.named(kind::DECLARATION, sub::NEWTYPE, format!("N{i}").as_bytes());
        if i + 1 == length {
            maker.add(kind::PRIMITIVE, if ends_bad { sub::F32 } else { sub::U8 });
        } else {
            maker.named(kind::NAMED, 0, format!("N{}", i + 1).as_bytes());
        }
    }
    maker.head(sub::HEAD_MESSAGE);
    while maker.len() + 3 <= count {
        maker.field_record();
        maker.add(kind::SET, 0);
        let name = format!("N{}", maker.random.below(length + 2));
        maker.named(kind::NAMED, 0, name.as_bytes());
    }
}

fn full_annotations(maker: &mut Maker, count: usize) {
    maker.head(sub::HEAD_MESSAGE);
    while maker.len() + 40 < count {
        maker.field_record();
        maker.annotations(9);
        maker.leaf();
    }
    maker.field_record();
    while maker.len() + 1 < count {
        maker.named(kind::ANNOTATION, 0, b"doc");
    }
    maker.leaf();
}

/// Nearly two violations for each record: annotations that are off their type and repeated.
fn full_list_of_violations(maker: &mut Maker, count: usize) {
    maker.head(sub::HEAD_MESSAGE);
    maker.named(kind::FIELD, 0, b"f").value = 65536;
    maker.named(kind::ANNOTATION, 0, b"varint");
    let word: &[u8] = if maker.random.chance(50) {
        b"zigzag"
    } else {
        b"limit"
    };
    while maker.len() + 1 < count {
        maker.named(kind::ANNOTATION, 0, word);
    }
    maker.add(kind::PRIMITIVE, sub::BOOL);
}

fn full_imports(maker: &mut Maker, count: usize) {
    maker.overlapping = false;
    while maker.len() + 30 < count {
        let name = format!("I{}", maker.random.below(2000));
        maker.named(kind::IMPORT, 0, name.as_bytes());
    }
    maker.head(sub::HEAD_MESSAGE);
    while maker.len() + 4 <= count {
        maker.field_record();
        let name = format!("I{}", maker.random.below(2000));
        maker.named(kind::NAMED, 0, name.as_bytes());
        maker.add(kind::CMP, 0);
        maker.named(kind::OPERAND, sub::OPERAND_CONST, name.as_bytes());
    }
}

/// Items as in a small message, then tombstones up to the count.
fn full_mixture(maker: &mut Maker, count: usize) {
    maker.context(10);
    maker.head(sub::HEAD_MESSAGE);
    while maker.len() < 880 {
        maker.field_item();
    }
    maker.draft.records.truncate(900);
    while maker
        .draft
        .records
        .last()
        .is_some_and(|r| r.kind != kind::FIELD_TOMBSTONE)
    {
        maker.draft.records.pop();
    }
    while maker.len() < count {
        let ordinal = maker.ordinal();
        maker.add(kind::FIELD_TOMBSTONE, 0).value = ordinal;
    }
}
