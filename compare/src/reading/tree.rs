//! An accepted sheet as a tree. A number of type `usize` is a record's index.

use crate::format::{sub, Record};
use std::collections::{HashMap, HashSet};

pub struct Sheet<'a> {
    pub records: Vec<Record>,
    pub names: &'a [u8],
}

impl<'a> Sheet<'a> {
    pub fn kind(&self, at: usize) -> u8 {
        self.records[at].kind
    }

    pub fn sub(&self, at: usize) -> u8 {
        self.records[at].sub
    }

    pub fn value(&self, at: usize) -> u64 {
        self.records[at].value
    }

    /// The name of a record that has one and passed row 4.
    pub fn name(&self, at: usize) -> &'a [u8] {
        let record = &self.records[at];
        &self.names[record.name_offset as usize..record.name_end() as usize]
    }
}

pub struct Context<'a> {
    /// Known declarations in record order.
    pub declarations: Vec<Declaration>,
    /// The place in `declarations` by name.
    pub declared: HashMap<&'a [u8], usize>,
    pub imported: HashSet<&'a [u8]>,
    pub wildcard: bool,
}

pub struct Declaration {
    pub at: usize,
    pub sub: u8,
    /// A newtype's inner type.
    pub inner: Option<Type>,
}

pub struct Type {
    pub at: usize,
    pub parts: Vec<Type>,
    pub bit_names: Vec<usize>,
}

pub struct Condition {
    pub at: usize,
    pub parts: Vec<Condition>,
    pub operands: Vec<usize>,
}

pub struct Annotation {
    pub at: usize,
    pub arguments: Vec<usize>,
}

pub struct Field {
    pub at: usize,
    pub annotations: Vec<Annotation>,
    pub ty: Type,
    pub condition: Option<Condition>,
}

pub enum FieldItem {
    Field(Field),
    Tombstone(usize),
    Invariant(usize),
}

/// A variant or bit, or a tombstone, of an enum, flags or union body.
pub enum VariantItem {
    Variant { at: usize, fields: Vec<FieldItem> },
    Tombstone(usize),
}

pub enum Body {
    Message(Vec<FieldItem>),
    Enum {
        backing: Option<usize>,
        items: Vec<VariantItem>,
    },
    Flags(Vec<VariantItem>),
    Union(Vec<VariantItem>),
    Newtype(Type),
}

impl<'a> Context<'a> {
    pub fn declaration(&self, name: &[u8]) -> Option<&Declaration> {
        self.declared
            .get(name)
            .map(|&place| &self.declarations[place])
    }

    /// Whether the name is declared with this sub.
    pub fn is_declared_as(&self, name: &[u8], sub: u8) -> bool {
        self.declaration(name).is_some_and(|d| d.sub == sub)
    }

    pub fn knows_type(&self, name: &[u8]) -> bool {
        self.wildcard || self.declared.contains_key(name) || self.imported.contains(name)
    }

    /// A wildcard makes no constant known.
    pub fn knows_constant(&self, name: &[u8]) -> bool {
        self.is_declared_as(name, sub::CONST) || self.imported.contains(name)
    }
}
