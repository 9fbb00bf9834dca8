//! The sheet of document 01 in numbers: kinds, subs and the 32 bytes of a record.

/// Bytes of a record of a sheet.
pub const RECORD: usize = 32;
/// Bytes of a violation of the list.
pub const VIOLATION: usize = 12;
/// The longest sheet and names text (rows 1 and 2).
pub const SHEET_LIMIT: usize = 32768;
pub const NAMES_LIMIT: usize = 16384;
/// The most violations for each record of a sheet.
pub const VIOLATIONS_PER_RECORD: usize = 3;
/// Bytes of a list that holds every violation of every sheet.
pub const LIST_LIMIT: usize = SHEET_LIMIT / RECORD * VIOLATIONS_PER_RECORD * VIOLATION;
/// The greatest depth of a type or condition (row 7).
pub const DEPTH_LIMIT: usize = 64;

/// Kinds, with the words of document 01 and of the Rust.
pub mod kind {
    pub const DECLARATION: u8 = 1;
    pub const IMPORT: u8 = 2;
    pub const WILDCARD: u8 = 3;
    pub const HEAD: u8 = 10;
    pub const FIELD: u8 = 11;
    pub const FIELD_TOMBSTONE: u8 = 12;
    pub const INVARIANT: u8 = 13;
    pub const VARIANT: u8 = 14;
    pub const TOMBSTONE: u8 = 15;
    pub const BACKING: u8 = 16;
    pub const ANNOTATION: u8 = 20;
    pub const ARGUMENT: u8 = 21;
    pub const BIT_NAME: u8 = 22;
    pub const PRIMITIVE: u8 = 30;
    pub const SUB_BYTE: u8 = 31;
    pub const SEMANTIC: u8 = 32;
    pub const NAMED: u8 = 33;
    pub const QUALIFIED: u8 = 34;
    pub const GENERIC: u8 = 35;
    pub const OPTIONAL: u8 = 36;
    pub const ARRAY: u8 = 37;
    pub const FIXED_ARRAY: u8 = 38;
    pub const SET: u8 = 39;
    pub const MAP: u8 = 40;
    pub const RESULT: u8 = 41;
    pub const VEC2: u8 = 42;
    pub const MAT4: u8 = 47;
    pub const BITS: u8 = 48;
    pub const AND: u8 = 50;
    pub const OR: u8 = 51;
    pub const NOT: u8 = 52;
    pub const CMP: u8 = 53;
    pub const RANGE: u8 = 54;
    pub const LEN_CMP: u8 = 55;
    pub const LEN_RANGE: u8 = 56;
    pub const OPERAND: u8 = 60;

    /// Every kind there is.
    pub const ALL: [u8; 40] = [
        1, 2, 3, 10, 11, 12, 13, 14, 15, 16, 20, 21, 22, 30, 31, 32, 33, 34, 35, 36, 37, 38, 39,
        40, 41, 42, 43, 44, 45, 46, 47, 48, 50, 51, 52, 53, 54, 55, 56, 60,
    ];
}

/// Subs, by the Rust's enums.
pub mod sub {
    // DeclKind
    pub const MESSAGE: u8 = 0;
    pub const UNION: u8 = 3;
    pub const NEWTYPE: u8 = 4;
    pub const CONFIG: u8 = 5;
    pub const CONST: u8 = 7;
    // heads
    pub const HEAD_MESSAGE: u8 = 0;
    pub const HEAD_ENUM: u8 = 1;
    pub const HEAD_FLAGS: u8 = 2;
    pub const HEAD_UNION: u8 = 3;
    pub const HEAD_NEWTYPE: u8 = 4;
    // PrimitiveType
    pub const BOOL: u8 = 0;
    pub const U8: u8 = 1;
    pub const U16: u8 = 2;
    pub const U32: u8 = 3;
    pub const U64: u8 = 4;
    pub const I16: u8 = 6;
    pub const I32: u8 = 7;
    pub const I64: u8 = 8;
    pub const F32: u8 = 9;
    pub const F64: u8 = 10;
    pub const FIXED32: u8 = 11;
    pub const FIXED64: u8 = 12;
    pub const VOID: u8 = 13;
    // SemanticType
    pub const STRING: u8 = 0;
    pub const BYTES: u8 = 1;
    // AnnotationValue
    pub const ARGUMENT_INT: u8 = 0;
    pub const ARGUMENT_HEX: u8 = 1;
    // CmpOp: Eq and Ne come before Lt, Gt, Le, Ge
    pub const EQ: u8 = 0;
    pub const LT: u8 = 2;
    // WhereOperand
    pub const OPERAND_INT: u8 = 0;
    pub const OPERAND_FLOAT: u8 = 1;
    pub const OPERAND_STRING: u8 = 2;
    pub const OPERAND_BOOL: u8 = 3;
    pub const OPERAND_CONST: u8 = 5;
}

/// How many subs a kind has, 0 for a kind without subs, `None` for an unknown kind.
pub fn subs(kind: u8) -> Option<u8> {
    match kind {
        kind::DECLARATION => Some(10),
        kind::HEAD => Some(5),
        kind::BACKING => Some(4),
        kind::ARGUMENT => Some(6),
        kind::PRIMITIVE => Some(14),
        kind::SEMANTIC => Some(6),
        kind::CMP | kind::LEN_CMP => Some(6),
        kind::RANGE | kind::LEN_RANGE => Some(2),
        kind::OPERAND => Some(6),
        2 | 3 | 11..=15 | 20 | 22 | 31 | 33..=48 | 50..=52 => Some(0),
        _ => None,
    }
}

/// Whether records of this kind and sub have a name.
pub fn has_name(kind: u8, sub: u8) -> bool {
    match kind {
        1 | 2 | 10 | 11 | 14 | 20..=22 | 33..=35 => true,
        kind::OPERAND => sub == sub::OPERAND_CONST,
        _ => false,
    }
}

/// Whether records of this kind have an ordinal as value.
pub fn has_ordinal(kind: u8) -> bool {
    matches!(
        kind,
        kind::FIELD | kind::FIELD_TOMBSTONE | kind::VARIANT | kind::TOMBSTONE
    )
}

/// How many types follow a type of this kind as its parts, `None` if it is no type.
pub fn type_parts(kind: u8) -> Option<usize> {
    match kind {
        kind::PRIMITIVE..=kind::QUALIFIED | kind::BITS => Some(0),
        kind::MAP | kind::RESULT => Some(2),
        kind::GENERIC..=kind::SET | kind::VEC2..=kind::MAT4 => Some(1),
        _ => None,
    }
}

/// How many conditions, then operands, follow a condition of this kind, `None` if it is none.
pub fn condition_parts(kind: u8) -> Option<(usize, usize)> {
    match kind {
        kind::AND | kind::OR => Some((2, 0)),
        kind::NOT => Some((1, 0)),
        kind::CMP | kind::LEN_CMP => Some((0, 1)),
        kind::RANGE | kind::LEN_RANGE => Some((0, 2)),
        _ => None,
    }
}

/// An offset and a length in the source, copied and never added up.
#[derive(Debug, Clone, Copy, PartialEq, Eq, Default)]
pub struct Span {
    pub offset: u32,
    pub len: u32,
}

/// The numbers of one record.
#[derive(Debug, Clone, Copy, PartialEq, Eq, Default)]
pub struct Record {
    pub kind: u8,
    pub sub: u8,
    pub name_len: u8,
    pub byte3: u8,
    pub name_offset: u32,
    pub span: Span,
    pub ordinal_span: Span,
    pub value: u64,
}

impl Record {
    /// The record in the first 32 bytes.
    pub fn decode(bytes: &[u8]) -> Record {
        let word = |at: usize| u32::from_le_bytes(bytes[at..at + 4].try_into().unwrap());
        Record {
            kind: bytes[0],
            sub: bytes[1],
            name_len: bytes[2],
            byte3: bytes[3],
            name_offset: word(4),
            span: Span {
                offset: word(8),
                len: word(12),
            },
            ordinal_span: Span {
                offset: word(16),
                len: word(20),
            },
            value: u64::from(word(24)) | u64::from(word(28)) << 32,
        }
    }

    /// The record's 32 bytes.
    pub fn encode(&self) -> [u8; RECORD] {
        let mut bytes = [0; RECORD];
        bytes[..4].copy_from_slice(&[self.kind, self.sub, self.name_len, self.byte3]);
        bytes[4..8].copy_from_slice(&self.name_offset.to_le_bytes());
        bytes[8..12].copy_from_slice(&self.span.offset.to_le_bytes());
        bytes[12..16].copy_from_slice(&self.span.len.to_le_bytes());
        bytes[16..20].copy_from_slice(&self.ordinal_span.offset.to_le_bytes());
        bytes[20..24].copy_from_slice(&self.ordinal_span.len.to_le_bytes());
        bytes[24..].copy_from_slice(&self.value.to_le_bytes());
        bytes
    }

    /// Where the name part ends in the names text.
    pub fn name_end(&self) -> u64 {
        u64::from(self.name_offset) + u64::from(self.name_len)
    }
}
