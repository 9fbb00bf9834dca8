//! Types at random.

use super::{Maker, HEAD_NAME};
use crate::format::{kind, sub, subs, type_parts};

const QUALIFIED: &str = "ns.Type a.b.c nodot";
/// Good and bad bit names, the empty one among them.
const BIT_NAMES: &str = "a z _ aZ9_ _0  A 0 a- Z { ` aé é";

impl Maker {
    /// A type whose first record is no kind 33.
    pub(super) fn unnamed_type(&mut self, depth: usize) {
        let kind = match self.random.below(10) {
            0..=3 => kind::PRIMITIVE,
            4 => kind::SEMANTIC,
            5 => *self
                .random
                .pick(&[kind::SUB_BYTE, kind::BITS, kind::QUALIFIED]),
            _ => self.random.between(35, 47) as u8,
        };
        self.type_of(kind, depth);
    }

    /// A type of at most this depth.
    pub fn ty(&mut self, depth: usize) {
        let kind = match self.random.below(20) {
            0..=6 => kind::PRIMITIVE,
            7 => kind::SUB_BYTE,
            8..=9 => kind::SEMANTIC,
            10..=12 => kind::NAMED,
            13 => *self.random.pick(&[kind::QUALIFIED, kind::BITS, kind::BITS]),
            14 => self.random.between(42, 47) as u8,
            _ => self.random.between(35, 41) as u8,
        };
        self.type_of(kind, depth);
    }

    /// A type of this kind and at most this depth.
    pub fn type_of(&mut self, kind: u8, depth: usize) {
        let parts = type_parts(kind).unwrap_or(0);
        if parts > 0 && (depth <= 1 || self.len() > 900) {
            return self.leaf();
        }
        self.type_record(kind);
        let is_vector = (kind::VEC2..=kind::MAT4).contains(&kind);
        for _ in 0..parts {
            if is_vector && self.random.chance(50) {
                let element = *self
                    .random
                    .pick(&[sub::F32, sub::F64, sub::FIXED32, sub::FIXED64]);
                self.add(kind::PRIMITIVE, element);
            } else {
                self.ty(depth - 1);
            }
        }
    }

    /// No optional, as a rule, or up to three.
    pub fn optionals(&mut self) {
        let count = *self.random.pick(&[0, 0, 0, 1, 1, 2, 3]);
        (0..count).for_each(|_| self.type_record(kind::OPTIONAL));
    }

    /// A type of any kind, each as likely, whose parts more often than not have a length.
    pub fn type_around_lengths(&mut self) {
        let kind = self
            .random
            .between(kind::PRIMITIVE.into(), kind::BITS.into()) as u8;
        self.type_record(kind);
        for _ in 0..type_parts(kind).unwrap_or(0) {
            match self.random.below(8) {
                0 | 1 => {
                    let text = *self.random.pick(&[sub::STRING, sub::BYTES]);
                    self.add(kind::SEMANTIC, text);
                }
                2..=5 => {
                    let kinds = [kind::ARRAY, kind::FIXED_ARRAY, kind::SET, kind::MAP];
                    let collection = *self.random.pick(&kinds);
                    self.type_of(collection, 2);
                }
                6 => {
                    let float = *self.random.pick(&[sub::F32, sub::F64]);
                    self.add(kind::PRIMITIVE, float);
                }
                _ => self.ty(2),
            }
        }
    }

    /// A type without parts.
    pub fn leaf(&mut self) {
        let kinds = [
            kind::PRIMITIVE,
            kind::PRIMITIVE,
            kind::SEMANTIC,
            kind::NAMED,
            kind::SUB_BYTE,
        ];
        let kind = *self.random.pick(&kinds);
        self.type_record(kind);
    }

    /// A type's own record, with bit names if it has any.
    pub fn type_record(&mut self, kind: u8) {
        let subs = usize::from(subs(kind).unwrap_or(0)).max(1);
        let sub = self.random.below(subs) as u8;
        match kind {
            kind::NAMED => self.named_type(),
            kind::QUALIFIED => {
                let name = self.random.word_of(QUALIFIED);
                self.named(kind, 0, name);
            }
            kind::GENERIC => {
                let name = self.pool_name();
                self.named(kind, 0, &name);
            }
            kind::FIXED_ARRAY => {
                let size = *self.random.pick(&[0, 1, 4, 1 << 32, u64::MAX]);
                self.add(kind, 0).value = size;
            }
            kind::SUB_BYTE => {
                let bits = self.random.next() & 0x1FF;
                self.add(kind, 0).value = bits;
            }
            kind::BITS => {
                self.add(kind, 0);
                let count = *self.random.pick(&[0, 1, 1, 2, 3]);
                (0..count).for_each(|_| self.bit_name());
            }
            _ => {
                self.add(kind, sub);
            }
        }
    }

    fn named_type(&mut self) {
        let name = match self.random.below(10) {
            0..=5 => self.one_of(&self.declared.clone()),
            6 => self.one_of(&self.imported.clone()),
            7 | 8 => self.pool_name(),
            _ => HEAD_NAME.to_vec(),
        };
        self.named(kind::NAMED, 0, &name);
    }

    /// A bit name, in one of three cases made of a start and any single byte below 128.
    pub fn bit_name(&mut self) {
        let mut name = self.random.word_of(BIT_NAMES).to_vec();
        if self.random.chance(33) {
            name = vec![b'a'; self.random.below(4)];
            name.push(self.random.byte() & 0x7F);
        }
        self.named(kind::BIT_NAME, 0, &name);
    }

    /// A type whose nesting reaches just this depth, at one of its records.
    pub fn deep_type(&mut self, depth: usize) {
        let after = self.wrappers(depth - 1);
        let last = if self.random.chance(30) {
            kind::BITS
        } else {
            kind::PRIMITIVE
        };
        self.type_record(last);
        (0..after).for_each(|_| self.leaf());
    }

    /// Types around types, so many deep; how many parts are due after the innermost.
    pub fn wrappers(&mut self, depth: usize) -> usize {
        let mut after = 0;
        for _ in 0..depth {
            let kind = self.random.between(35, 47) as u8;
            self.type_record(kind);
            if type_parts(kind) == Some(2) {
                if self.random.chance(50) {
                    self.leaf();
                } else {
                    after += 1;
                }
            }
        }
        after
    }
}
