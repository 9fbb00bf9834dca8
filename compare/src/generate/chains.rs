//! Keys behind chains of newtypes, and chains that never end.

use super::field_list;
use super::maker::Maker;
use crate::format::{kind, sub};

/// Sets and maps of names behind chains of newtypes.
pub fn keys(maker: &mut Maker) {
    if maker.random.chance(50) {
        chain(maker, 8);
    } else {
        maker.context(12);
    }
    field_list(maker);
    for _ in 0..maker.random.between(1, 4) {
        maker.field_record();
        if maker.random.chance(40) {
            let kind = *maker.random.pick(&[kind::OPTIONAL, kind::ARRAY, kind::SET]);
            maker.type_record(kind);
        }
        key_holder(maker);
    }
}

/// A set or a map whose key is often named.
fn key_holder(maker: &mut Maker) {
    let kind = *maker.random.pick(&[kind::SET, kind::MAP]);
    maker.type_record(kind);
    if maker.random.chance(70) {
        maker.type_record(kind::NAMED);
    } else {
        maker.ty(2);
    }
    if kind == kind::MAP {
        maker.ty(2);
    }
}

/// Declares a chain of up to `most` newtypes, in any order, that ends at a type or a declaration.
fn chain(maker: &mut Maker, most: usize) {
    let count = maker.random.between(1, most);
    let last = maker.random.below(10) as u8;
    let name = |i: usize| format!("N{i}").into_bytes();
    let mut order: Vec<usize> = (0..count).collect();
    if maker.random.chance(70) {
        maker.random.shuffle(&mut order);
    }
    maker.declared = (0..=count).map(name).collect();
    for i in order {
        maker.named(kind::DECLARATION, sub::NEWTYPE, &name(i));
        maker.named(kind::NAMED, 0, &name(i + 1));
    }
    if maker.random.chance(80) {
        maker.named(kind::DECLARATION, last, &name(count));
        if last == sub::NEWTYPE {
            let kind = *maker
                .random
                .pick(&[kind::PRIMITIVE, kind::SEMANTIC, kind::OPTIONAL]);
            maker.type_of(kind, 2);
        }
    }
}

/// A ring of newtypes, chains that lead into it, and others beside it.
pub fn rings(maker: &mut Maker) {
    let beside = maker.random.below(3);
    let ring = maker.random.between(1, 5);
    let into = maker.random.below(4);
    let mut links: Vec<(String, String)> = Vec::new();
    for i in 0..ring {
        links.push((format!("R{i}"), format!("R{}", (i + 1) % ring)));
    }
    for i in 0..into {
        let to = if i == 0 {
            "R0".to_string()
        } else {
            format!("I{}", i - 1)
        };
        links.push((format!("I{i}"), to));
    }
    for i in 0..beside {
        links.push((format!("B{i}"), format!("B{}", i + 1)));
    }
    if maker.random.chance(60) {
        maker.random.shuffle(&mut links);
    } else {
        links.reverse();
    }
    let opened = maker.random.chance(20);
    for (name, inner) in links {
        declaration_beside(maker);
        maker.named(kind::DECLARATION, sub::NEWTYPE, name.as_bytes());
        if opened && name == "R0" {
            // No ring: the chain ends at an optional.
            maker.type_record(kind::OPTIONAL);
        }
        maker.named(kind::NAMED, 0, inner.as_bytes());
    }
    maker.declared = vec![b"R0".to_vec(), b"I0".to_vec(), b"B0".to_vec()];
    maker.head(sub::HEAD_MESSAGE);
    maker.field_record();
    key_holder(maker);
}

/// At times an import, or a declaration that is no newtype.
fn declaration_beside(maker: &mut Maker) {
    let name = format!("D{}", maker.len());
    match maker.random.below(6) {
        0 => maker.named(kind::IMPORT, 0, name.as_bytes()),
        1 => maker.named(kind::DECLARATION, sub::CONFIG, name.as_bytes()),
        _ => return,
    };
}
