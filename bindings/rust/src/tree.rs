//! The values that a sheet is laid out from: a declaration and what is known around it.
//!
//! The types have the shape of the compiler's tree and its names where they mean the same. What the
//! rules do not ask for is left out: texts of literals, annotations of declarations and variants, the
//! conditions of invariants.

/// A place in the source. It is copied to the sheet and never computed with.
#[derive(Debug, Clone, Copy, PartialEq, Eq, Hash, Default)]
pub struct Span {
    pub offset: u32,
    pub len: u32,
}

/// A value with its place in the source.
#[derive(Debug, Clone, PartialEq)]
pub struct Spanned<T> {
    pub node: T,
    pub span: Span,
}

impl<T> Spanned<T> {
    pub fn new(node: T, span: Span) -> Spanned<T> {
        Spanned { node, span }
    }
}

/// A name: any bytes.
#[derive(Debug, Clone, PartialEq, Eq, Hash, Default)]
pub struct Name(pub Vec<u8>);

impl From<&str> for Name {
    fn from(name: &str) -> Name {
        Name(name.as_bytes().to_vec())
    }
}

impl From<String> for Name {
    fn from(name: String) -> Name {
        Name(name.into_bytes())
    }
}

impl From<&[u8]> for Name {
    fn from(name: &[u8]) -> Name {
        Name(name.to_vec())
    }
}

/// What a known declaration declares. Only a newtype's inner type is asked for.
#[derive(Debug, Clone, PartialEq)]
pub enum DeclKind {
    Message,
    Enum,
    Flags,
    Union,
    Newtype(Spanned<TypeExpr>),
    Config,
    Alias,
    Const,
    Trait,
    Impl,
}

/// The declaration that is checked.
#[derive(Debug, Clone, PartialEq)]
pub struct Decl {
    pub name: Spanned<Name>,
    pub body: Body,
}

/// The five bodies.
#[derive(Debug, Clone, PartialEq)]
pub enum Body {
    Message(Vec<MessageBodyItem>),
    Enum {
        backing: Option<Spanned<EnumBacking>>,
        body: Vec<EnumBodyItem>,
    },
    Flags(Vec<FlagsBodyItem>),
    Union(Vec<UnionBodyItem>),
    Newtype(Spanned<TypeExpr>),
}

/// An item of a message, or of a union variant's fields.
#[derive(Debug, Clone, PartialEq)]
pub enum MessageBodyItem {
    Field(MessageField),
    Tombstone(Tombstone),
    /// An invariant, of which only the place is told.
    Invariant(Span),
}

/// A field. Its violations are told at the places of its name, its ordinal and its parts.
#[derive(Debug, Clone, PartialEq)]
pub struct MessageField {
    pub name: Spanned<Name>,
    pub ordinal: Spanned<u64>,
    /// Those before the name, then those after the ordinal, then those after the type.
    pub annotations: Vec<Annotation>,
    pub ty: Spanned<TypeExpr>,
    pub where_clause: Option<Spanned<WhereExpr>>,
}

/// A retired ordinal.
#[derive(Debug, Clone, Copy, PartialEq, Eq)]
pub struct Tombstone {
    pub ordinal: u64,
    pub span: Span,
}

#[derive(Debug, Clone, PartialEq)]
pub enum EnumBodyItem {
    Variant(Variant),
    Tombstone(Tombstone),
}

#[derive(Debug, Clone, PartialEq)]
pub enum FlagsBodyItem {
    Bit(Variant),
    Tombstone(Tombstone),
}

#[derive(Debug, Clone, PartialEq)]
pub enum UnionBodyItem {
    Variant(UnionVariant),
    Tombstone(Tombstone),
}

/// A variant of an enum, or a bit of flags.
#[derive(Debug, Clone, PartialEq)]
pub struct Variant {
    pub name: Spanned<Name>,
    pub ordinal: Spanned<u64>,
}

/// A variant of a union, with its fields.
#[derive(Debug, Clone, PartialEq)]
pub struct UnionVariant {
    pub name: Spanned<Name>,
    pub ordinal: Spanned<u64>,
    pub fields: Vec<MessageBodyItem>,
}

#[derive(Debug, Clone, Copy, PartialEq, Eq)]
pub enum EnumBacking {
    U8,
    U16,
    U32,
    U64,
}

/// An annotation of a field.
#[derive(Debug, Clone, PartialEq)]
pub struct Annotation {
    pub name: Name,
    pub span: Span,
    pub args: Vec<AnnotationArg>,
}

/// An argument of an annotation, with a key or without one.
#[derive(Debug, Clone, PartialEq)]
pub struct AnnotationArg {
    pub key: Option<Name>,
    pub value: AnnotationValue,
    pub span: Span,
}

/// The value of an argument. Texts are left out.
#[derive(Debug, Clone, Copy, PartialEq, Eq)]
pub enum AnnotationValue {
    Int(u64),
    Hex(u64),
    Str,
    Bool(bool),
    Ident,
    UpperIdent,
}

#[derive(Debug, Clone, PartialEq)]
pub enum TypeExpr {
    Primitive(PrimitiveType),
    SubByte(SubByteType),
    Semantic(SemanticType),
    Named(Name),
    /// A namespace and a type of it.
    Qualified(Name, Name),
    Generic(Name, Box<Spanned<TypeExpr>>),
    Optional(Box<Spanned<TypeExpr>>),
    Array(Box<Spanned<TypeExpr>>),
    FixedArray(Box<Spanned<TypeExpr>>, u64),
    Set(Box<Spanned<TypeExpr>>),
    /// The key and the value.
    Map(Box<Spanned<TypeExpr>>, Box<Spanned<TypeExpr>>),
    Result(Box<Spanned<TypeExpr>>, Box<Spanned<TypeExpr>>),
    Vec2(Box<Spanned<TypeExpr>>),
    Vec3(Box<Spanned<TypeExpr>>),
    Vec4(Box<Spanned<TypeExpr>>),
    Quat(Box<Spanned<TypeExpr>>),
    Mat3(Box<Spanned<TypeExpr>>),
    Mat4(Box<Spanned<TypeExpr>>),
    /// The bit names. A bad one is told at the type.
    BitsInline(Vec<Name>),
}

#[derive(Debug, Clone, Copy, PartialEq, Eq)]
pub enum PrimitiveType {
    Bool,
    U8,
    U16,
    U32,
    U64,
    I8,
    I16,
    I32,
    I64,
    F32,
    F64,
    Fixed32,
    Fixed64,
    Void,
}

#[derive(Debug, Clone, Copy, PartialEq, Eq)]
pub struct SubByteType {
    pub signed: bool,
    pub bits: u8,
}

#[derive(Debug, Clone, Copy, PartialEq, Eq)]
pub enum SemanticType {
    String,
    Bytes,
    Rgb,
    Uuid,
    Timestamp,
    Hash,
}

/// The condition of a field.
#[derive(Debug, Clone, PartialEq)]
pub enum WhereExpr {
    And(Box<Spanned<WhereExpr>>, Box<Spanned<WhereExpr>>),
    Or(Box<Spanned<WhereExpr>>, Box<Spanned<WhereExpr>>),
    Not(Box<Spanned<WhereExpr>>),
    Cmp {
        op: CmpOp,
        operand: Spanned<WhereOperand>,
    },
    Range {
        low: Spanned<WhereOperand>,
        high: Spanned<WhereOperand>,
        exclusive_high: bool,
    },
    LenCmp {
        op: CmpOp,
        operand: Spanned<WhereOperand>,
    },
    LenRange {
        low: Spanned<WhereOperand>,
        high: Spanned<WhereOperand>,
        exclusive_high: bool,
    },
}

#[derive(Debug, Clone, Copy, PartialEq, Eq)]
pub enum CmpOp {
    Eq,
    Ne,
    Lt,
    Gt,
    Le,
    Ge,
}

/// An operand of a condition. A string's text is left out.
#[derive(Debug, Clone, PartialEq)]
pub enum WhereOperand {
    Int(i64),
    Float(f64),
    String,
    Bool(bool),
    Value,
    ConstRef(Name),
}
