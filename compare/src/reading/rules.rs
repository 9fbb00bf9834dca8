//! Rules 1 to 38, in the order in which violations appear: field lists and the other
//! bodies here, the parts of a field in files of their own.

mod annotations;
mod conditions;
mod types;

use super::tree::{Body, Context, Field, FieldItem, Sheet, Type, VariantItem};
use super::{class_and_severity, Violation};
use crate::format::{kind, sub, Span};
use std::collections::HashSet;

struct Rules<'s, 'a> {
    sheet: &'s Sheet<'a>,
    context: &'s Context<'a>,
    list: Vec<Violation>,
}

/// The greatest ordinal of fields and variants, and the highest bit.
const ORDINAL_LIMIT: u64 = 65535;
const BIT_LIMIT: u64 = 63;

/// The full list of an accepted sheet.
pub fn violations(sheet: &Sheet, context: &Context, body: &Body) -> Vec<Violation> {
    let mut rules = Rules {
        sheet,
        context,
        list: Vec::new(),
    };
    rules.body(body);
    rules.list
}

impl<'s, 'a> Rules<'s, 'a> {
    /// A violation at the record's span.
    fn found(&mut self, rule: u16, at: usize) {
        self.push(rule, at, self.sheet.records[at].span);
    }

    /// A violation at the record's ordinal.
    fn found_at_ordinal(&mut self, rule: u16, at: usize) {
        self.push(rule, at, self.sheet.records[at].ordinal_span);
    }

    fn push(&mut self, rule: u16, at: usize, span: Span) {
        let (class, severity) = class_and_severity(rule);
        let Span { offset, len } = span;
        self.list.push(Violation {
            class,
            severity,
            offset,
            len,
            rule,
            record: at as u16,
        });
    }

    fn body(&mut self, body: &Body) {
        match body {
            Body::Message(items) => self.field_list(items),
            Body::Enum { backing, items } => self.enum_body(*backing, items),
            Body::Flags(items) => self.flags_body(items),
            Body::Union(items) => self.variants(items, 35, 36),
            Body::Newtype(inner) => self.newtype_body(inner),
        }
    }

    /// Rules 1 to 5, and each field's type, annotations and condition.
    fn field_list(&mut self, items: &[FieldItem]) {
        let mut tombstones = HashSet::new();
        for item in items {
            if let FieldItem::Tombstone(at) = item {
                tombstones.insert(self.sheet.value(*at));
            }
        }
        let mut ordinals = HashSet::new();
        let mut names = HashSet::new();
        for item in items {
            match item {
                FieldItem::Invariant(at) => self.found(1, *at), // rule 1
                FieldItem::Tombstone(_) => {}
                FieldItem::Field(field) => {
                    let again = !ordinals.insert(self.sheet.value(field.at));
                    self.field_ordinal(field.at, &tombstones, again);
                    if !names.insert(self.sheet.name(field.at)) {
                        self.found(5, field.at); // rule 5
                    }
                    self.field_parts(field);
                }
            }
        }
    }

    /// Rules 2, 3 and 4; `again`: an earlier field of the list has the same ordinal.
    fn field_ordinal(&mut self, at: usize, tombstones: &HashSet<u64>, again: bool) {
        let ordinal = self.sheet.value(at);
        if ordinal > ORDINAL_LIMIT {
            self.found_at_ordinal(2, at); // rule 2
        }
        if tombstones.contains(&ordinal) {
            self.found_at_ordinal(3, at); // rule 3
        } else if again {
            self.found_at_ordinal(4, at); // rule 4
        }
    }

    fn field_parts(&mut self, field: &Field) {
        self.ty(&field.ty);
        self.annotations(&field.annotations, &field.ty);
        if let Some(condition) = &field.condition {
            let compared = self.compared(&field.ty);
            self.condition(condition, &field.ty, &compared);
        }
    }

    /// Rules 31 and 32 over an enum, 35 and 36 over a union: too large, then repeated
    /// or tombstoned; then the variant's fields.
    fn variants(&mut self, items: &[VariantItem], too_large: u16, taken: u16) {
        let mut tombstones = HashSet::new();
        for item in items {
            if let VariantItem::Tombstone(at) = item {
                tombstones.insert(self.sheet.value(*at));
            }
        }
        let mut met = HashSet::new();
        for item in items {
            let VariantItem::Variant { at, fields } = item else {
                continue;
            };
            let ordinal = self.sheet.value(*at);
            if ordinal > ORDINAL_LIMIT {
                self.found_at_ordinal(too_large, *at); // rules 31, 35
            }
            if !met.insert(ordinal) || tombstones.contains(&ordinal) {
                self.found_at_ordinal(taken, *at); // rules 32, 36
            }
            self.field_list(fields);
        }
    }

    /// Rules 31, 32, 33.
    fn enum_body(&mut self, backing: Option<usize>, items: &[VariantItem]) {
        self.variants(items, 31, 32);
        let Some(backing) = backing else { return };
        let greatest = variant_records(items).map(|at| self.sheet.value(at)).max();
        let holds = match self.sheet.sub(backing) {
            0 => u64::from(u8::MAX),
            1 => u64::from(u16::MAX),
            2 => u64::from(u32::MAX),
            _ => u64::MAX,
        };
        if greatest.is_some_and(|greatest| greatest > holds) {
            self.found(33, backing); // rule 33
        }
    }

    /// Rule 34.
    fn flags_body(&mut self, items: &[VariantItem]) {
        for at in variant_records(items) {
            if self.sheet.value(at) > BIT_LIMIT {
                self.found_at_ordinal(34, at); // rule 34
            }
        }
    }

    /// Rules 37 and 38.
    fn newtype_body(&mut self, inner: &Type) {
        if self.sheet.kind(inner.at) != kind::NAMED {
            return;
        }
        let name = self.sheet.name(inner.at);
        if self.context.is_declared_as(name, sub::NEWTYPE) {
            self.found(37, inner.at); // rule 37
        }
        if self.context.is_declared_as(name, sub::CONFIG) {
            self.found(38, inner.at); // rule 38
        }
    }
}

fn variant_records(items: &[VariantItem]) -> impl Iterator<Item = usize> + '_ {
    items.iter().filter_map(|item| match item {
        VariantItem::Variant { at, .. } => Some(*at),
        VariantItem::Tombstone(_) => None,
    })
}
