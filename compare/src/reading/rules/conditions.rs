//! Rules 23 to 30.

use super::Rules;
use crate::format::{kind, sub};
use crate::reading::tree::{Condition, Type};

/// What an operand may be compared with: a field's value or a length.
pub(super) struct Compared {
    numeric: bool,
    float: bool,
    string: bool,
    boolean: bool,
}

/// A length counts as U64.
const LENGTH: Compared = Compared {
    numeric: true,
    float: false,
    string: false,
    boolean: false,
};

impl Rules<'_, '_> {
    /// What operands may be for a field of this type; only numbers are seen through optional.
    pub(super) fn compared(&self, ty: &Type) -> Compared {
        Compared {
            numeric: self.is_numeric(self.through_optional(ty)),
            float: self.is_primitive_of(ty, &[sub::F32, sub::F64]),
            string: self.is_semantic(ty, sub::STRING),
            boolean: self.is_primitive_of(ty, &[sub::BOOL]),
        }
    }

    /// Rules 23 to 30, parts left to right.
    pub(super) fn condition(&mut self, condition: &Condition, ty: &Type, compared: &Compared) {
        let at = condition.at;
        match self.sheet.kind(at) {
            kind::CMP => {
                self.operands(condition, compared);
                if self.sheet.sub(at) >= sub::LT && !compared.numeric {
                    self.found(28, at); // rule 28
                }
            }
            kind::RANGE => {
                self.operands(condition, compared);
                if !compared.numeric {
                    self.found(29, at); // rule 29
                }
            }
            kind::LEN_CMP | kind::LEN_RANGE => {
                if !self.has_length(self.through_optional(ty)) {
                    self.found(30, at); // rule 30
                }
                self.operands(condition, &LENGTH);
            }
            _ => {
                for part in &condition.parts {
                    self.condition(part, ty, compared);
                }
            }
        }
    }

    fn operands(&mut self, condition: &Condition, compared: &Compared) {
        for &operand in &condition.operands {
            self.operand(operand, compared);
        }
    }

    /// Rules 23 to 27; the value itself fits everywhere.
    fn operand(&mut self, at: usize, compared: &Compared) {
        let (rule, fits) = match self.sheet.sub(at) {
            sub::OPERAND_INT => (23, compared.numeric),   // rule 23
            sub::OPERAND_FLOAT => (24, compared.float),   // rule 24
            sub::OPERAND_STRING => (25, compared.string), // rule 25
            sub::OPERAND_BOOL => (26, compared.boolean),  // rule 26
            sub::OPERAND_CONST => (27, self.context.knows_constant(self.sheet.name(at))), // rule 27
            _ => return,
        };
        if !fits {
            self.found(rule, at);
        }
    }
}
