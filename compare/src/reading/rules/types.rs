//! Rules 6 to 12, and the questions that other rules ask about a type.

use super::Rules;
use crate::format::{kind, sub};
use crate::reading::tree::{Declaration, Type};

impl Rules<'_, '_> {
    /// Rules 6 to 12.
    pub(super) fn ty(&mut self, ty: &Type) {
        match self.sheet.kind(ty.at) {
            kind::NAMED => self.named_type(ty),
            kind::SET => {
                self.key(&ty.parts[0]);
                self.ty(&ty.parts[0]);
            }
            kind::MAP => {
                self.key(&ty.parts[0]);
                self.ty(&ty.parts[1]); // the key is never checked as a type
            }
            kind::FIXED_ARRAY => {
                if self.sheet.value(ty.at) == 0 {
                    self.found(9, ty.at); // rule 9
                }
                self.ty(&ty.parts[0]);
            }
            kind::VEC2..=kind::MAT4 => {
                if !self.is_geometric_element(&ty.parts[0]) {
                    self.found(10, ty.parts[0].at); // rule 10
                }
                self.ty(&ty.parts[0]);
            }
            kind::OPTIONAL | kind::ARRAY | kind::RESULT => {
                ty.parts.iter().for_each(|part| self.ty(part));
            }
            kind::BITS => self.bits(ty),
            _ => {} // primitive, sub-byte, semantic, qualified, generic
        }
    }

    fn named_type(&mut self, ty: &Type) {
        let name = self.sheet.name(ty.at);
        if self.context.is_declared_as(name, sub::CONFIG) {
            self.found(6, ty.at); // rule 6
        } else if !self.context.knows_type(name) {
            self.found(7, ty.at); // rule 7
        }
    }

    /// A set's inner or a map's key.
    fn key(&mut self, key: &Type) {
        if self.is_bad_key(key) {
            self.found(8, key.at); // rule 8
        }
    }

    /// Document 01's bad keys.
    fn is_bad_key(&self, key: &Type) -> bool {
        match self.sheet.kind(key.at) {
            kind::PRIMITIVE => {
                matches!(self.sheet.sub(key.at), sub::F32 | sub::F64 | sub::VOID)
            }
            kind::OPTIONAL | kind::ARRAY | kind::SET | kind::MAP | kind::RESULT => true,
            kind::NAMED => match self.context.declaration(self.sheet.name(key.at)) {
                Some(declaration) => self.is_bad_declared_key(declaration),
                None => false,
            },
            _ => false,
        }
    }

    fn is_bad_declared_key(&self, declaration: &Declaration) -> bool {
        match &declaration.inner {
            Some(inner) => self.is_bad_key(inner),
            None => matches!(declaration.sub, sub::MESSAGE | sub::UNION | sub::CONFIG),
        }
    }

    fn is_geometric_element(&self, ty: &Type) -> bool {
        self.is_primitive_of(ty, &[sub::F32, sub::F64, sub::FIXED32, sub::FIXED64])
    }

    fn bits(&mut self, ty: &Type) {
        if ty.bit_names.is_empty() {
            self.found(11, ty.at); // rule 11
        }
        for &bit in &ty.bit_names {
            if !is_bit_name(self.sheet.name(bit)) {
                self.found(12, ty.at); // rule 12
            }
        }
    }

    pub(super) fn is_primitive_of(&self, ty: &Type, subs: &[u8]) -> bool {
        self.sheet.kind(ty.at) == kind::PRIMITIVE && subs.contains(&self.sheet.sub(ty.at))
    }

    pub(super) fn is_semantic(&self, ty: &Type, sub: u8) -> bool {
        self.sheet.kind(ty.at) == kind::SEMANTIC && self.sheet.sub(ty.at) == sub
    }

    /// Delta's list: all primitives but Bool and Void; sub-byte.
    pub(super) fn is_numeric(&self, ty: &Type) -> bool {
        match self.sheet.kind(ty.at) {
            kind::PRIMITIVE => !self.is_primitive_of(ty, &[sub::BOOL, sub::VOID]),
            other => other == kind::SUB_BYTE,
        }
    }

    /// Len's list: string, bytes, array, fixed array.
    pub(super) fn has_length(&self, ty: &Type) -> bool {
        self.is_semantic(ty, sub::STRING)
            || self.is_semantic(ty, sub::BYTES)
            || matches!(self.sheet.kind(ty.at), kind::ARRAY | kind::FIXED_ARRAY)
    }

    /// Limit's list: len's, and set and map.
    pub(super) fn takes_limit(&self, ty: &Type) -> bool {
        self.has_length(ty) || matches!(self.sheet.kind(ty.at), kind::SET | kind::MAP)
    }

    /// The type below any optionals.
    pub(super) fn through_optional<'t>(&self, ty: &'t Type) -> &'t Type {
        let mut below = ty;
        while self.sheet.kind(below.at) == kind::OPTIONAL {
            below = &below.parts[0];
        }
        below
    }
}

/// A bit name starts with a-z or `_`, then ASCII letters, digits, `_`.
fn is_bit_name(name: &[u8]) -> bool {
    let Some((first, rest)) = name.split_first() else {
        return false;
    };
    let starts = first.is_ascii_lowercase() || *first == b'_';
    starts
        && rest
            .iter()
            .all(|byte| byte.is_ascii_alphanumeric() || *byte == b'_')
}
