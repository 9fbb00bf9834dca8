//! Lays out sheets from the values of [`tree`](crate::tree).

use std::error::Error;
use std::fmt;

use crate::answer::Answer;
use crate::call::check;
use crate::format::{
    kind, sub, Record, DEPTH_LIMIT, NAMES_LIMIT, NAME_LIMIT, ORDINAL_LIMIT, RECORD, RECORD_LIMIT,
};
use crate::names::Names;
use crate::report::Report;
use crate::tree::*;

/// What a sheet cannot hold.
#[non_exhaustive]
#[derive(Debug, Clone, Copy, PartialEq, Eq)]
pub enum Fault {
    /// A name of over 255 bytes; a qualified name is its two parts and a dot.
    NameTooLong { len: usize },
    /// Names of over 16,384 bytes, each counted once.
    NamesTooLong { len: usize },
    /// Over 1,024 records.
    TooManyRecords,
    /// A type or condition of over 64 levels.
    TooDeep,
    /// An ordinal over 4,294,967,295.
    OrdinalTooGreat { ordinal: u64 },
    /// A key without bytes, which on a sheet means that there is no key.
    EmptyKey,
}

/// Why no sheet was laid out: what it cannot hold, and where that stands in the source.
#[derive(Debug, Clone, Copy, PartialEq, Eq)]
pub struct BuildError {
    pub fault: Fault,
    pub span: Span,
}

impl fmt::Display for Fault {
    fn fmt(&self, f: &mut fmt::Formatter) -> fmt::Result {
        match self {
            Fault::NameTooLong { len } => {
                write!(f, "a name of {len} bytes, over {NAME_LIMIT}")
            }
            Fault::NamesTooLong { len } => {
                write!(f, "names of {len} bytes, over {NAMES_LIMIT}")
            }
            Fault::TooManyRecords => write!(f, "over {RECORD_LIMIT} records"),
            Fault::TooDeep => write!(f, "a type or condition over {DEPTH_LIMIT} deep"),
            Fault::OrdinalTooGreat { ordinal } => {
                write!(f, "an ordinal of {ordinal}, over {ORDINAL_LIMIT}")
            }
            Fault::EmptyKey => f.write_str("a key without bytes"),
        }
    }
}

impl fmt::Display for BuildError {
    fn fmt(&self, f: &mut fmt::Formatter) -> fmt::Result {
        let Span { offset, len } = self.span;
        write!(
            f,
            "the sheet cannot hold {} (at {offset}, length {len})",
            self.fault
        )
    }
}

impl Error for BuildError {}

/// A sheet and its names text.
#[derive(Debug, Clone, PartialEq, Eq, Default)]
pub struct Sheet {
    pub records: Vec<u8>,
    pub names: Vec<u8>,
}

impl Sheet {
    /// Checks the declaration on the sheet; see [`check`].
    pub fn check(&self, list: &mut [u8]) -> Answer {
        check(&self.records, &self.names, list)
    }

    /// Checks the declaration on the sheet, and reads all of its violations.
    pub fn report(&self) -> Report {
        Report::of(&self.records, &self.names)
    }
}

/// What is known around a declaration: the declarations of the schema and its imports.
///
/// It is laid out once and then starts the sheet of every declaration, [`Context::sheet`]. A call that
/// gives an error leaves it as it was. What the format can hold is not judged here: a name declared
/// twice or a ring of newtypes is turned down by the check.
#[derive(Debug, Clone, Default)]
pub struct Context {
    layout: Layout,
}

impl Context {
    pub fn new() -> Context {
        Context::default()
    }

    /// Adds a known declaration. A constant is one of kind [`DeclKind::Const`].
    pub fn declare(&mut self, name: &Spanned<Name>, kind: &DeclKind) -> Result<(), BuildError> {
        self.layout.all_or_nothing(|layout| {
            layout.named(kind::DECLARATION, decl_kind(kind), &name.node, name.span)?;
            match kind {
                DeclKind::Newtype(inner) => layout.ty(inner, 1),
                _ => Ok(()),
            }
        })
    }

    /// Adds an imported name.
    pub fn import(&mut self, name: &Spanned<Name>) -> Result<(), BuildError> {
        self.layout
            .all_or_nothing(|layout| layout.named(kind::IMPORT, 0, &name.node, name.span))
    }

    /// Adds a wildcard import, which makes every type name known.
    pub fn wildcard(&mut self, span: Span) -> Result<(), BuildError> {
        self.layout.record(plain(kind::WILDCARD, 0, span))
    }

    /// The sheet of a declaration in this context.
    pub fn sheet(&self, decl: &Decl) -> Result<Sheet, BuildError> {
        let mut layout = self.layout.clone();
        layout.decl(decl)?;
        Ok(Sheet {
            records: layout.records,
            names: layout.names.text,
        })
    }
}

/// The number of a known declaration's kind.
fn decl_kind(kind: &DeclKind) -> u8 {
    match kind {
        DeclKind::Message => 0,
        DeclKind::Enum => 1,
        DeclKind::Flags => 2,
        DeclKind::Union => 3,
        DeclKind::Newtype(_) => 4,
        DeclKind::Config => 5,
        DeclKind::Alias => 6,
        DeclKind::Const => 7,
        DeclKind::Trait => 8,
        DeclKind::Impl => 9,
    }
}

/// A record without a name.
fn plain(kind: u8, sub: u8, span: Span) -> Record {
    Record {
        kind,
        sub,
        span,
        ..Record::default()
    }
}

/// The records and names laid out so far.
#[derive(Debug, Clone, Default)]
struct Layout {
    records: Vec<u8>,
    names: Names,
}

impl Layout {
    /// Runs steps that are taken back if one of them fails.
    fn all_or_nothing(
        &mut self,
        steps: impl FnOnce(&mut Layout) -> Result<(), BuildError>,
    ) -> Result<(), BuildError> {
        let (records, names) = (self.records.len(), self.names.text.len());
        let result = steps(self);
        if result.is_err() {
            self.records.truncate(records);
            self.names.cut(names);
        }
        result
    }

    /// Adds a record.
    fn record(&mut self, record: Record) -> Result<(), BuildError> {
        if self.records.len() >= RECORD_LIMIT * RECORD {
            let fault = Fault::TooManyRecords;
            let span = record.span;
            return Err(BuildError { fault, span });
        }
        self.records.extend_from_slice(&record.encode());
        Ok(())
    }

    /// The record with its name.
    fn with_name(&mut self, name: &[u8], record: Record) -> Result<Record, BuildError> {
        let span = record.span;
        let name_len = u8::try_from(name.len()).map_err(|_| BuildError {
            fault: Fault::NameTooLong { len: name.len() },
            span,
        })?;
        let added = self.names.find(name).map_or(name.len(), |_| 0);
        let len = self.names.text.len() + added;
        if len > NAMES_LIMIT {
            let fault = Fault::NamesTooLong { len };
            return Err(BuildError { fault, span });
        }
        Ok(Record {
            name_len,
            name_offset: self.names.place(name) as u32,
            ..record
        })
    }

    /// Adds a record with a name.
    fn named(&mut self, kind: u8, sub: u8, name: &Name, span: Span) -> Result<(), BuildError> {
        let record = self.with_name(&name.0, plain(kind, sub, span))?;
        self.record(record)
    }

    /// Adds a field's or variant's own record.
    fn item(
        &mut self,
        kind: u8,
        name: &Spanned<Name>,
        ordinal: &Spanned<u64>,
    ) -> Result<(), BuildError> {
        let record = Record {
            ordinal_span: ordinal.span,
            value: fitting(ordinal.node, ordinal.span)?,
            ..plain(kind, 0, name.span)
        };
        let record = self.with_name(&name.node.0, record)?;
        self.record(record)
    }

    fn tombstone(&mut self, kind: u8, tombstone: &Tombstone) -> Result<(), BuildError> {
        self.record(Record {
            value: fitting(tombstone.ordinal, tombstone.span)?,
            ..plain(kind, 0, tombstone.span)
        })
    }

    fn decl(&mut self, decl: &Decl) -> Result<(), BuildError> {
        let Spanned { node: name, span } = &decl.name;
        let sub = match decl.body {
            Body::Message(_) => 0,
            Body::Enum { .. } => 1,
            Body::Flags(_) => 2,
            Body::Union(_) => sub::UNION_HEAD,
            Body::Newtype(_) => 4,
        };
        self.named(kind::HEAD, sub, name, *span)?;
        match &decl.body {
            Body::Message(items) => self.field_list(items),
            Body::Enum { backing, body } => self.enum_body(backing.as_ref(), body),
            Body::Flags(items) => items.iter().try_for_each(|item| match item {
                FlagsBodyItem::Bit(bit) => self.item(kind::VARIANT, &bit.name, &bit.ordinal),
                FlagsBodyItem::Tombstone(t) => self.tombstone(kind::TOMBSTONE, t),
            }),
            Body::Union(items) => items.iter().try_for_each(|item| self.union_item(item)),
            Body::Newtype(inner) => self.ty(inner, 1),
        }
    }

    fn enum_body(
        &mut self,
        backing: Option<&Spanned<EnumBacking>>,
        body: &[EnumBodyItem],
    ) -> Result<(), BuildError> {
        if let Some(backing) = backing {
            self.record(plain(kind::BACKING, backing.node as u8, backing.span))?;
        }
        body.iter().try_for_each(|item| match item {
            EnumBodyItem::Variant(v) => self.item(kind::VARIANT, &v.name, &v.ordinal),
            EnumBodyItem::Tombstone(t) => self.tombstone(kind::TOMBSTONE, t),
        })
    }

    fn union_item(&mut self, item: &UnionBodyItem) -> Result<(), BuildError> {
        match item {
            UnionBodyItem::Variant(variant) => {
                self.item(kind::VARIANT, &variant.name, &variant.ordinal)?;
                self.field_list(&variant.fields)
            }
            UnionBodyItem::Tombstone(t) => self.tombstone(kind::TOMBSTONE, t),
        }
    }

    fn field_list(&mut self, items: &[MessageBodyItem]) -> Result<(), BuildError> {
        items.iter().try_for_each(|item| match item {
            MessageBodyItem::Field(field) => self.field(field),
            MessageBodyItem::Tombstone(t) => self.tombstone(kind::FIELD_TOMBSTONE, t),
            MessageBodyItem::Invariant(span) => self.record(plain(kind::INVARIANT, 0, *span)),
        })
    }

    fn field(&mut self, field: &MessageField) -> Result<(), BuildError> {
        self.item(kind::FIELD, &field.name, &field.ordinal)?;
        for annotation in &field.annotations {
            self.named(kind::ANNOTATION, 0, &annotation.name, annotation.span)?;
            annotation
                .args
                .iter()
                .try_for_each(|argument| self.argument(argument))?;
        }
        self.ty(&field.ty, 1)?;
        match &field.where_clause {
            Some(condition) => self.condition(condition, 1),
            None => Ok(()),
        }
    }

    fn argument(&mut self, argument: &AnnotationArg) -> Result<(), BuildError> {
        let span = argument.span;
        let (sub, value) = match argument.value {
            AnnotationValue::Int(value) => (0, value),
            AnnotationValue::Hex(value) => (1, value),
            AnnotationValue::Str => (2, 0),
            AnnotationValue::Bool(value) => (3, value.into()),
            AnnotationValue::Ident => (4, 0),
            AnnotationValue::UpperIdent => (5, 0),
        };
        let record = Record {
            value,
            ..plain(kind::ARGUMENT, sub, span)
        };
        let record = match &argument.key {
            None => record,
            Some(Name(key)) if key.is_empty() => {
                let fault = Fault::EmptyKey;
                return Err(BuildError { fault, span });
            }
            Some(Name(key)) => self.with_name(key, record)?,
        };
        self.record(record)
    }

    /// Adds a type whose first record has that depth.
    fn ty(&mut self, ty: &Spanned<TypeExpr>, depth: usize) -> Result<(), BuildError> {
        let span = ty.span;
        within_depth(depth, span)?;
        let wrap = |layout: &mut Layout, kind: u8, inner: &Spanned<TypeExpr>| {
            layout.record(plain(kind, 0, span))?;
            layout.ty(inner, depth + 1)
        };
        match &ty.node {
            TypeExpr::Primitive(p) => self.record(plain(kind::PRIMITIVE, *p as u8, span)),
            TypeExpr::SubByte(s) => self.record(Record {
                value: u64::from(s.bits) | u64::from(s.signed) << 8,
                ..plain(kind::SUB_BYTE, 0, span)
            }),
            TypeExpr::Semantic(s) => self.record(plain(kind::SEMANTIC, *s as u8, span)),
            TypeExpr::Named(name) => self.named(kind::NAMED, 0, name, span),
            TypeExpr::Qualified(namespace, name) => {
                let both = [&namespace.0[..], b".", &name.0].concat();
                self.named(kind::QUALIFIED, 0, &Name(both), span)
            }
            TypeExpr::Generic(name, argument) => {
                self.named(kind::GENERIC, 0, name, span)?;
                self.ty(argument, depth + 1)
            }
            TypeExpr::Optional(inner) => wrap(self, kind::OPTIONAL, inner),
            TypeExpr::Array(inner) => wrap(self, kind::ARRAY, inner),
            TypeExpr::FixedArray(inner, size) => {
                self.record(Record {
                    value: *size,
                    ..plain(kind::FIXED_ARRAY, 0, span)
                })?;
                self.ty(inner, depth + 1)
            }
            TypeExpr::Set(inner) => wrap(self, kind::SET, inner),
            TypeExpr::Map(key, value) => {
                wrap(self, kind::MAP, key)?;
                self.ty(value, depth + 1)
            }
            TypeExpr::Result(ok, err) => {
                wrap(self, kind::RESULT, ok)?;
                self.ty(err, depth + 1)
            }
            TypeExpr::Vec2(inner) => wrap(self, kind::VEC2, inner),
            TypeExpr::Vec3(inner) => wrap(self, kind::VEC3, inner),
            TypeExpr::Vec4(inner) => wrap(self, kind::VEC4, inner),
            TypeExpr::Quat(inner) => wrap(self, kind::QUAT, inner),
            TypeExpr::Mat3(inner) => wrap(self, kind::MAT3, inner),
            TypeExpr::Mat4(inner) => wrap(self, kind::MAT4, inner),
            TypeExpr::BitsInline(names) => {
                self.record(plain(kind::BITS_INLINE, 0, span))?;
                names
                    .iter()
                    .try_for_each(|name| self.named(kind::BIT_NAME, 0, name, span))
            }
        }
    }

    /// Adds a condition whose first record has that depth.
    fn condition(
        &mut self,
        condition: &Spanned<WhereExpr>,
        depth: usize,
    ) -> Result<(), BuildError> {
        let span = condition.span;
        within_depth(depth, span)?;
        let next = depth + 1;
        match &condition.node {
            WhereExpr::And(left, right) => {
                self.record(plain(kind::AND, 0, span))?;
                self.condition(left, next)?;
                self.condition(right, next)
            }
            WhereExpr::Or(left, right) => {
                self.record(plain(kind::OR, 0, span))?;
                self.condition(left, next)?;
                self.condition(right, next)
            }
            WhereExpr::Not(inner) => {
                self.record(plain(kind::NOT, 0, span))?;
                self.condition(inner, next)
            }
            WhereExpr::Cmp { op, operand } => {
                self.record(plain(kind::CMP, *op as u8, span))?;
                self.operand(operand, next)
            }
            WhereExpr::LenCmp { op, operand } => {
                self.record(plain(kind::LEN_CMP, *op as u8, span))?;
                self.operand(operand, next)
            }
            WhereExpr::Range {
                low,
                high,
                exclusive_high,
            } => {
                self.record(plain(kind::RANGE, (*exclusive_high).into(), span))?;
                self.operand(low, next)?;
                self.operand(high, next)
            }
            WhereExpr::LenRange {
                low,
                high,
                exclusive_high,
            } => {
                self.record(plain(kind::LEN_RANGE, (*exclusive_high).into(), span))?;
                self.operand(low, next)?;
                self.operand(high, next)
            }
        }
    }

    fn operand(&mut self, operand: &Spanned<WhereOperand>, depth: usize) -> Result<(), BuildError> {
        let span = operand.span;
        within_depth(depth, span)?;
        let (sub, value) = match &operand.node {
            WhereOperand::Int(value) => (sub::INT_OPERAND, *value as u64),
            WhereOperand::Float(value) => (sub::FLOAT_OPERAND, value.to_bits()),
            WhereOperand::String => (2, 0),
            WhereOperand::Bool(value) => (sub::BOOL_OPERAND, (*value).into()),
            WhereOperand::Value => (4, 0),
            WhereOperand::ConstRef(name) => {
                return self.named(kind::OPERAND, sub::CONST_REF, name, span)
            }
        };
        self.record(Record {
            value,
            ..plain(kind::OPERAND, sub, span)
        })
    }
}

/// The ordinal, if a sheet can hold it.
fn fitting(ordinal: u64, span: Span) -> Result<u64, BuildError> {
    if ordinal > ORDINAL_LIMIT {
        let fault = Fault::OrdinalTooGreat { ordinal };
        return Err(BuildError { fault, span });
    }
    Ok(ordinal)
}

/// Refuses a depth over the greatest one.
fn within_depth(depth: usize, span: Span) -> Result<(), BuildError> {
    if depth > DEPTH_LIMIT {
        let fault = Fault::TooDeep;
        return Err(BuildError { fault, span });
    }
    Ok(())
}
