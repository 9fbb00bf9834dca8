//! Rules 13 to 22.

use super::Rules;
use crate::format::{kind, sub};
use crate::reading::tree::{Annotation, Type};
use std::collections::HashSet;

/// The greatest `@limit`.
const LENGTH_LIMIT: u64 = 16_777_216;

impl Rules<'_, '_> {
    /// Rules 13 to 22.
    pub(super) fn annotations(&mut self, annotations: &[Annotation], ty: &Type) {
        let sheet = self.sheet;
        let first = |word: &[u8]| annotations.iter().find(|a| sheet.name(a.at) == word);
        if let (Some(_), Some(zigzag)) = (first(b"varint"), first(b"zigzag")) {
            self.found(13, zigzag.at); // rule 13
        }
        for annotation in annotations {
            self.annotation(annotation, ty);
        }
        let mut met = HashSet::new();
        for annotation in annotations {
            let name = sheet.name(annotation.at);
            if !met.insert(name) && name != b"doc" {
                self.found(22, annotation.at); // rule 22
            }
        }
    }

    /// Rules 14 to 21.
    fn annotation(&mut self, annotation: &Annotation, ty: &Type) {
        match self.sheet.name(annotation.at) {
            b"varint" => {
                let to = [sub::U16, sub::U32, sub::U64, sub::FIXED32, sub::FIXED64];
                if !self.is_primitive_of(ty, &to) {
                    self.found(14, annotation.at); // rule 14
                }
            }
            b"zigzag" => {
                if !self.is_primitive_of(ty, &[sub::I16, sub::I32, sub::I64]) {
                    self.found(15, annotation.at); // rule 15
                }
            }
            b"delta" => {
                if !self.is_numeric(ty) {
                    self.found(16, annotation.at); // rule 16
                }
            }
            b"limit" => self.limit(annotation, ty),
            b"deprecated" => self.deprecated(annotation),
            _ => {}
        }
    }

    /// Rules 17, 18, 19.
    fn limit(&mut self, annotation: &Annotation, ty: &Type) {
        let takes_limit = self.takes_limit(ty);
        let is_bounded = takes_limit && self.sheet.kind(ty.at) != kind::FIXED_ARRAY;
        if !takes_limit {
            self.found(17, annotation.at); // rule 17
        }
        for &argument in &annotation.arguments {
            if !self.is_unkeyed_number(argument) {
                continue;
            }
            let limit = self.sheet.value(argument);
            if limit == 0 {
                self.found(18, annotation.at); // rule 18
            }
            if limit > LENGTH_LIMIT && is_bounded {
                self.found(19, annotation.at); // rule 19
            }
        }
    }

    /// An Int or Hex without a key: length 0 is "no key".
    fn is_unkeyed_number(&self, argument: usize) -> bool {
        let is_number = matches!(
            self.sheet.sub(argument),
            sub::ARGUMENT_INT | sub::ARGUMENT_HEX
        );
        is_number && self.sheet.name(argument).is_empty()
    }

    /// Rules 20 and 21.
    fn deprecated(&mut self, annotation: &Annotation) {
        let has_reason = annotation
            .arguments
            .iter()
            .any(|&a| self.sheet.name(a) == b"reason");
        self.found(if has_reason { 21 } else { 20 }, annotation.at); // rules 20, 21
    }
}
