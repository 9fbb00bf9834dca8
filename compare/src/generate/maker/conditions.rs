//! Conditions and operands at random.

use super::Maker;
use crate::format::{condition_parts, kind, sub, subs};

impl Maker {
    /// A condition of at most this depth, its operands included.
    pub fn condition(&mut self, depth: usize) {
        let can_join = depth > 2 && self.len() < 900;
        let kind = if can_join && self.random.chance(40) {
            self.random.between(50, 52) as u8
        } else {
            *self.random.pick(&[
                kind::CMP,
                kind::CMP,
                kind::RANGE,
                kind::LEN_CMP,
                kind::LEN_RANGE,
            ])
        };
        self.condition_of(kind, depth);
    }

    /// A condition of this kind and at most this depth.
    pub fn condition_of(&mut self, kind: u8, depth: usize) {
        let (conditions, operands) = condition_parts(kind).unwrap_or((0, 0));
        let sub = self
            .random
            .below(usize::from(subs(kind).unwrap_or(0)).max(1)) as u8;
        self.add(kind, sub);
        (0..conditions).for_each(|_| self.condition(depth - 1));
        (0..operands).for_each(|_| self.operand());
    }

    fn operand(&mut self) {
        let sub = if self.is_clean() {
            0
        } else {
            self.random.below(6) as u8
        };
        let bits = [
            0,
            1,
            1 << 63,
            u64::MAX,
            0x7FF8_0000_0000_0000,
            0x3FF0_0000_0000_0000,
        ];
        let value = *self.random.pick(&bits);
        if sub != sub::OPERAND_CONST {
            self.add(kind::OPERAND, sub).value = value;
            return;
        }
        let name = match self.random.below(10) {
            0..=4 => self.one_of(&self.constants.clone()),
            5 | 6 => self.one_of(&self.imported.clone()),
            7 => self.one_of(&self.declared.clone()),
            _ => self.pool_name(),
        };
        self.named(kind::OPERAND, sub, &name);
    }

    /// A condition whose nesting reaches just this depth, operands included; at least 2.
    pub fn deep_condition(&mut self, depth: usize) {
        let mut after = 0;
        for _ in 2..depth {
            let kind = self.random.between(50, 52) as u8;
            self.add(kind, 0);
            if kind != kind::NOT && self.random.chance(50) {
                self.condition(2);
            } else if kind != kind::NOT {
                after += 1;
            }
        }
        (0..=after).for_each(|_| self.condition(2));
    }
}
