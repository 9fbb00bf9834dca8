//! The sheet in numbers: limits, kinds and the 32 bytes of a record.

use crate::tree::Span;
use crate::violation::Violation;

/// The bytes of a record of a sheet.
pub const RECORD: usize = 32;
/// The most records of a sheet.
pub const RECORD_LIMIT: usize = 1024;
/// The most bytes of a names text.
pub const NAMES_LIMIT: usize = 16384;
/// The most bytes of a name.
pub const NAME_LIMIT: usize = 255;
/// The greatest depth of a type or condition.
pub const DEPTH_LIMIT: usize = 64;
/// The greatest ordinal.
pub const ORDINAL_LIMIT: u64 = u32::MAX as u64;
/// The most violations for each record of a sheet.
pub const VIOLATIONS_PER_RECORD: usize = 3;
/// The bytes of a list that holds the violations of any sheet.
pub const LIST_LIMIT: usize = VIOLATIONS_PER_RECORD * RECORD_LIMIT * Violation::SIZE;

/// The numbers of the kinds.
pub mod kind {
    pub const DECLARATION: u8 = 1;
    pub const IMPORT: u8 = 2;
    pub const WILDCARD: u8 = 3;
    pub const HEAD: u8 = 10;
    pub const FIELD: u8 = 11;
    pub const FIELD_TOMBSTONE: u8 = 12;
    pub const INVARIANT: u8 = 13;
    pub const VARIANT: u8 = 14;
    pub const TOMBSTONE: u8 = 15;
    pub const BACKING: u8 = 16;
    pub const ANNOTATION: u8 = 20;
    pub const ARGUMENT: u8 = 21;
    pub const BIT_NAME: u8 = 22;
    pub const PRIMITIVE: u8 = 30;
    pub const SUB_BYTE: u8 = 31;
    pub const SEMANTIC: u8 = 32;
    pub const NAMED: u8 = 33;
    pub const QUALIFIED: u8 = 34;
    pub const GENERIC: u8 = 35;
    pub const OPTIONAL: u8 = 36;
    pub const ARRAY: u8 = 37;
    pub const FIXED_ARRAY: u8 = 38;
    pub const SET: u8 = 39;
    pub const MAP: u8 = 40;
    pub const RESULT: u8 = 41;
    pub const VEC2: u8 = 42;
    pub const VEC3: u8 = 43;
    pub const VEC4: u8 = 44;
    pub const QUAT: u8 = 45;
    pub const MAT3: u8 = 46;
    pub const MAT4: u8 = 47;
    pub const BITS_INLINE: u8 = 48;
    pub const AND: u8 = 50;
    pub const OR: u8 = 51;
    pub const NOT: u8 = 52;
    pub const CMP: u8 = 53;
    pub const RANGE: u8 = 54;
    pub const LEN_CMP: u8 = 55;
    pub const LEN_RANGE: u8 = 56;
    pub const OPERAND: u8 = 60;
}

/// The subs that are asked for by number.
pub mod sub {
    pub const UNION_HEAD: u8 = 3;
    pub const INT_OPERAND: u8 = 0;
    pub const FLOAT_OPERAND: u8 = 1;
    pub const BOOL_OPERAND: u8 = 3;
    pub const CONST_REF: u8 = 5;
}

/// What the value of a record is.
#[derive(Debug, Clone, Copy, PartialEq, Eq)]
pub enum Value {
    /// The kind uses no value.
    Unused,
    /// A number: an ordinal, an array's size, an argument's literal.
    Number,
    /// The bits and the sign of a sub-byte type.
    SubByte,
    /// A literal, by the operand's sub.
    Operand,
}

/// What a kind has.
#[derive(Debug)]
pub struct Kind {
    pub number: u8,
    /// The kind's word in the text of a sheet.
    pub word: &'static str,
    /// The words of its subs, counted from 0; none for a kind without subs.
    pub subs: &'static [&'static str],
    /// Whether it has a name; an operand has one by its sub.
    pub named: bool,
    pub value: Value,
    /// How many types, conditions or operands follow it as its parts.
    pub parts: usize,
}

const DECL_KIND: &[&str] = &[
    "message", "enum", "flags", "union", "newtype", "config", "alias", "const", "trait", "impl",
];
const HEADS: &[&str] = &["message", "enum", "flags", "union", "newtype"];
const BACKINGS: &[&str] = &["u8", "u16", "u32", "u64"];
const PRIMITIVES: &[&str] = &[
    "bool", "u8", "u16", "u32", "u64", "i8", "i16", "i32", "i64", "f32", "f64", "fixed32",
    "fixed64", "void",
];
const SEMANTICS: &[&str] = &["string", "bytes", "rgb", "uuid", "timestamp", "hash"];
const ANNOTATION_VALUES: &[&str] = &["int", "hex", "str", "bool", "ident", "upper-ident"];
const CMP_OPS: &[&str] = &["eq", "ne", "lt", "gt", "le", "ge"];
const HIGHS: &[&str] = &["inclusive", "exclusive"];
const OPERANDS: &[&str] = &["int", "float", "string", "bool", "value", "const-ref"];

const fn plain(number: u8, word: &'static str, parts: usize) -> Kind {
    Kind {
        number,
        word,
        subs: &[],
        named: false,
        value: Value::Unused,
        parts,
    }
}

const fn named(number: u8, word: &'static str, parts: usize) -> Kind {
    Kind {
        named: true,
        ..plain(number, word, parts)
    }
}

const fn with_subs(
    number: u8,
    word: &'static str,
    subs: &'static [&'static str],
    parts: usize,
) -> Kind {
    Kind {
        subs,
        ..plain(number, word, parts)
    }
}

const fn valued(kind: Kind, value: Value) -> Kind {
    Kind { value, ..kind }
}

/// Every kind there is, in the order of the numbers.
pub const KINDS: &[Kind] = &[
    Kind {
        named: true,
        ..with_subs(kind::DECLARATION, "declaration", DECL_KIND, 0)
    },
    named(kind::IMPORT, "import", 0),
    plain(kind::WILDCARD, "wildcard", 0),
    Kind {
        named: true,
        ..with_subs(kind::HEAD, "head", HEADS, 0)
    },
    valued(named(kind::FIELD, "field", 0), Value::Number),
    valued(
        plain(kind::FIELD_TOMBSTONE, "field-tombstone", 0),
        Value::Number,
    ),
    plain(kind::INVARIANT, "invariant", 0),
    valued(named(kind::VARIANT, "variant", 0), Value::Number),
    valued(plain(kind::TOMBSTONE, "tombstone", 0), Value::Number),
    with_subs(kind::BACKING, "backing", BACKINGS, 0),
    named(kind::ANNOTATION, "annotation", 0),
    Kind {
        named: true,
        value: Value::Number,
        ..with_subs(kind::ARGUMENT, "argument", ANNOTATION_VALUES, 0)
    },
    named(kind::BIT_NAME, "bit-name", 0),
    with_subs(kind::PRIMITIVE, "primitive", PRIMITIVES, 0),
    valued(plain(kind::SUB_BYTE, "sub-byte", 0), Value::SubByte),
    with_subs(kind::SEMANTIC, "semantic", SEMANTICS, 0),
    named(kind::NAMED, "named", 0),
    named(kind::QUALIFIED, "qualified", 0),
    named(kind::GENERIC, "generic", 1),
    plain(kind::OPTIONAL, "optional", 1),
    plain(kind::ARRAY, "array", 1),
    valued(plain(kind::FIXED_ARRAY, "fixed-array", 1), Value::Number),
    plain(kind::SET, "set", 1),
    plain(kind::MAP, "map", 2),
    plain(kind::RESULT, "result", 2),
    plain(kind::VEC2, "vec2", 1),
    plain(kind::VEC3, "vec3", 1),
    plain(kind::VEC4, "vec4", 1),
    plain(kind::QUAT, "quat", 1),
    plain(kind::MAT3, "mat3", 1),
    plain(kind::MAT4, "mat4", 1),
    plain(kind::BITS_INLINE, "bits-inline", 0),
    plain(kind::AND, "and", 2),
    plain(kind::OR, "or", 2),
    plain(kind::NOT, "not", 1),
    with_subs(kind::CMP, "cmp", CMP_OPS, 1),
    with_subs(kind::RANGE, "range", HIGHS, 2),
    with_subs(kind::LEN_CMP, "len-cmp", CMP_OPS, 1),
    with_subs(kind::LEN_RANGE, "len-range", HIGHS, 2),
    valued(
        with_subs(kind::OPERAND, "operand", OPERANDS, 0),
        Value::Operand,
    ),
];

impl Kind {
    /// The kind with that number.
    pub fn of(number: u8) -> Option<&'static Kind> {
        KINDS.iter().find(|kind| kind.number == number)
    }

    /// The kind with that word.
    pub fn with_word(word: &str) -> Option<&'static Kind> {
        KINDS.iter().find(|kind| kind.word == word)
    }

    /// Whether records of this kind and that sub have a name.
    pub fn has_name(&self, sub: u8) -> bool {
        self.named || self.number == kind::OPERAND && sub == sub::CONST_REF
    }

    /// Whether records of this kind are types.
    pub fn is_type(&self) -> bool {
        (kind::PRIMITIVE..=kind::BITS_INLINE).contains(&self.number)
    }

    /// Whether records of this kind are types, conditions or operands.
    pub fn is_part(&self) -> bool {
        self.number >= kind::PRIMITIVE
    }
}

/// The number in four bytes from a place on.
pub(crate) fn word(bytes: &[u8], at: usize) -> u32 {
    u32::from_le_bytes([bytes[at], bytes[at + 1], bytes[at + 2], bytes[at + 3]])
}

/// The numbers of one record.
#[derive(Debug, Clone, Copy, PartialEq, Eq, Default)]
pub struct Record {
    pub kind: u8,
    pub sub: u8,
    pub name_len: u8,
    pub byte3: u8,
    pub name_offset: u32,
    pub span: Span,
    pub ordinal_span: Span,
    pub value: u64,
}

impl Record {
    /// The record that 32 bytes are.
    pub fn decode(bytes: &[u8; RECORD]) -> Record {
        let span = |at| Span {
            offset: word(bytes, at),
            len: word(bytes, at + 4),
        };
        Record {
            kind: bytes[0],
            sub: bytes[1],
            name_len: bytes[2],
            byte3: bytes[3],
            name_offset: word(bytes, 4),
            span: span(8),
            ordinal_span: span(16),
            value: u64::from(word(bytes, 24)) | u64::from(word(bytes, 28)) << 32,
        }
    }

    /// The record's 32 bytes.
    pub fn encode(&self) -> [u8; RECORD] {
        let words = [
            self.name_offset,
            self.span.offset,
            self.span.len,
            self.ordinal_span.offset,
            self.ordinal_span.len,
        ];
        let mut bytes = [0; RECORD];
        bytes[..4].copy_from_slice(&[self.kind, self.sub, self.name_len, self.byte3]);
        for (place, word) in bytes[4..24].chunks_exact_mut(4).zip(words) {
            place.copy_from_slice(&word.to_le_bytes());
        }
        bytes[24..].copy_from_slice(&self.value.to_le_bytes());
        bytes
    }
}
