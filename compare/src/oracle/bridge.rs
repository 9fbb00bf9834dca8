//! From an accepted sheet to the Rust's tree and context, and the check on them.
//!
//! A child of the module `validate`, since the functions called are private to it.
//! Kinds, subs and bytes are those of document 01, "The sheet".

use std::collections::{HashMap, HashSet};

use smol_str::SmolStr;

use super::{
    check_enum, check_flags, check_message, check_newtype, check_union, DeclKind, ValidationContext,
};
use crate::ast::{
    Annotation, AnnotationArg, AnnotationValue, CmpOp, ConstDecl, ConstExpr, Decl, EnumBacking,
    EnumBodyItem, EnumDecl, EnumVariant, FlagsBit, FlagsBodyItem, FlagsDecl, MessageBodyItem,
    MessageDecl, MessageField, MessageInvariant, NewtypeDecl, PrimitiveType, SemanticType,
    SubByteType, Tombstone, TypeExpr, UnionBodyItem, UnionDecl, UnionVariant, WhereExpr,
    WhereOperand,
};
use crate::diagnostic::{Diagnostic, Severity};
use crate::span::{Span, Spanned};

const RECORD: usize = 32;
const SHEET_MAX: usize = 32768;
const NAMES_MAX: usize = 16384;
const DEPTH_MAX: u32 = 64;

// ---------------------------------------------------------------------------
// What is handed back
// ---------------------------------------------------------------------------

/// One violation: `class` counts the variants of `ErrorClass` from 0, `severity`
/// is 0 for an error and 1 for a warning.
#[derive(Debug, Clone, PartialEq, Eq)]
pub struct Found {
    pub class: u16,
    pub severity: u8,
    pub offset: u32,
    pub len: u32,
}

impl From<Diagnostic> for Found {
    fn from(diag: Diagnostic) -> Self {
        Self {
            class: diag.class as u16,
            severity: match diag.severity {
                Severity::Error => 0,
                Severity::Warning => 1,
            },
            offset: diag.span.offset,
            len: diag.span.len,
        }
    }
}

/// A kind 1 record: a declaration that the body may name.
struct Known {
    name: SmolStr,
    kind: DeclKind,
    span: Span,
    /// Of sub 4, the inner type.
    inner: Option<Spanned<TypeExpr>>,
    /// Of sub 7, the constant.
    constant: Option<ConstDecl>,
}

/// A sheet's declaration and context, the context's maps filled.
///
/// The maps refer to the heap of `known` and `imported`, which are neither
/// changed nor handed out while the tree lives; hence `'static` inside.
pub struct Tree {
    decl_map: HashMap<&'static SmolStr, (DeclKind, Span)>,
    imported_names: HashSet<&'static SmolStr>,
    has_imports: bool,
    has_wildcard_import: bool,
    newtype_inners: HashMap<&'static SmolStr, &'static TypeExpr>,
    alias_targets: HashMap<&'static SmolStr, &'static TypeExpr>,
    const_map: HashMap<&'static SmolStr, &'static ConstDecl>,
    decl: Decl,
    known: Vec<Known>,
    imported: Vec<SmolStr>,
}

// ---------------------------------------------------------------------------
// The three calls
// ---------------------------------------------------------------------------

/// The tree of an accepted sheet with UTF-8 names. `Err` says what is wrong with
/// another sheet; rings of newtypes (row 9) are not looked for.
pub fn build(sheet: &[u8], names: &[u8]) -> Result<Tree, String> {
    if !sheet.len().is_multiple_of(RECORD) || sheet.len() > SHEET_MAX {
        return Err(format!("a sheet of {} bytes", sheet.len()));
    }
    if names.len() > NAMES_MAX {
        return Err(format!("a names text of {} bytes", names.len()));
    }
    let mut reader = Reader {
        sheet,
        names,
        at: 0,
    };
    let mut known = Vec::new();
    let mut imported = Vec::new();
    let mut has_wildcard_import = false;
    loop {
        match reader.kind() {
            Some(1) => known.push(reader.known()?),
            Some(2) => imported.push(reader.imported()?),
            Some(3) => {
                reader.take()?;
                has_wildcard_import = true;
            }
            _ => break,
        }
    }
    let decl = reader.declaration()?;
    match reader.kind() {
        None => Tree::new(known, imported, has_wildcard_import, decl),
        Some(_) => Err(reader.misplaced("the end")),
    }
}

/// What the Rust's check finds, in its order. The tree's newtypes form no ring.
pub fn check(tree: &Tree) -> Vec<Found> {
    let ctx = ValidationContext {
        decl_map: &tree.decl_map,
        imported_names: &tree.imported_names,
        has_imports: tree.has_imports,
        has_wildcard_import: tree.has_wildcard_import,
        newtype_inners: &tree.newtype_inners,
        alias_targets: &tree.alias_targets,
        const_map: &tree.const_map,
    };
    let mut diags = Vec::new();
    match &tree.decl {
        Decl::Message(d) => check_message(d, &ctx, &mut diags),
        Decl::Enum(d) => check_enum(d, &mut diags),
        Decl::Flags(d) => check_flags(d, &mut diags),
        Decl::Union(d) => check_union(d, &ctx, &mut diags),
        Decl::Newtype(d) => check_newtype(d, &ctx, &mut diags),
        _ => unreachable!("a head has sub 0 to 4"),
    }
    diags.into_iter().map(Found::from).collect()
}

/// `check` of `build`.
pub fn run(sheet: &[u8], names: &[u8]) -> Result<Vec<Found>, String> {
    Ok(check(&build(sheet, names)?))
}

impl Tree {
    /// Fills the maps as `validate_impl` does. `Err` at a second kind 1 with the
    /// same name.
    fn new(
        known: Vec<Known>,
        imported: Vec<SmolStr>,
        has_wildcard_import: bool,
        decl: Decl,
    ) -> Result<Self, String> {
        let mut tree = Self {
            decl_map: HashMap::new(),
            imported_names: HashSet::new(),
            has_imports: has_wildcard_import || !imported.is_empty(),
            has_wildcard_import,
            newtype_inners: HashMap::new(),
            alias_targets: HashMap::new(),
            const_map: HashMap::new(),
            decl,
            known,
            imported,
        };
        // SAFETY: both vectors stay as they are until the tree is dropped, and a
        // map's drop reads none of its references.
        let (known, imported) = unsafe { (forever(&tree.known), forever(&tree.imported)) };
        for k in known {
            if tree.decl_map.insert(&k.name, (k.kind, k.span)).is_some() {
                return Err(format!("a second declaration of {:?}", k.name));
            }
            if let Some(inner) = &k.inner {
                tree.newtype_inners.insert(&k.name, &inner.node);
            }
            if let Some(constant) = &k.constant {
                tree.const_map.insert(&constant.name.node, constant);
            }
        }
        tree.imported_names.extend(imported);
        Ok(tree)
    }
}

/// The items of a vector, for as long as the caller keeps it unchanged.
unsafe fn forever<T>(items: &Vec<T>) -> &'static [T] {
    unsafe { std::slice::from_raw_parts(items.as_ptr(), items.len()) }
}

// ---------------------------------------------------------------------------
// One record
// ---------------------------------------------------------------------------

#[derive(Clone, Copy)]
struct Record<'a> {
    bytes: &'a [u8],
    index: usize,
}

impl Record<'_> {
    fn kind(&self) -> u8 {
        self.bytes[0]
    }

    fn sub(&self) -> u8 {
        self.bytes[1]
    }

    fn u32_at(&self, at: usize) -> u32 {
        u32::from_le_bytes(self.bytes[at..at + 4].try_into().unwrap())
    }

    /// Bytes 8-15.
    fn span(&self) -> Span {
        Span {
            offset: self.u32_at(8),
            len: self.u32_at(12),
        }
    }

    /// Bytes 16-23, of kinds 11 and 14.
    fn ordinal_span(&self) -> Span {
        Span {
            offset: self.u32_at(16),
            len: self.u32_at(20),
        }
    }

    /// Bytes 24-31.
    fn value(&self) -> u64 {
        u64::from_le_bytes(self.bytes[24..32].try_into().unwrap())
    }

    fn ordinal(&self) -> Result<u32, String> {
        u32::try_from(self.value()).map_err(|_| self.fault("an ordinal over 4294967295"))
    }

    /// The entry of a table by sub.
    fn by_sub<T: Copy>(&self, table: &[T]) -> Result<T, String> {
        let entry = table.get(usize::from(self.sub()));
        entry.copied().ok_or_else(|| self.fault("an unknown sub"))
    }

    fn fault(&self, what: &str) -> String {
        let (kind, sub) = (self.kind(), self.sub());
        format!("record {} ({kind}/{sub}): {what}", self.index)
    }
}

// ---------------------------------------------------------------------------
// Subs, in the Rust's order
// ---------------------------------------------------------------------------

const DECL_KINDS: [DeclKind; 10] = [
    DeclKind::Message,
    DeclKind::Enum,
    DeclKind::Flags,
    DeclKind::Union,
    DeclKind::Newtype,
    DeclKind::Config,
    DeclKind::Alias,
    DeclKind::Const,
    DeclKind::Trait,
    DeclKind::Impl,
];

const PRIMITIVES: [PrimitiveType; 14] = [
    PrimitiveType::Bool,
    PrimitiveType::U8,
    PrimitiveType::U16,
    PrimitiveType::U32,
    PrimitiveType::U64,
    PrimitiveType::I8,
    PrimitiveType::I16,
    PrimitiveType::I32,
    PrimitiveType::I64,
    PrimitiveType::F32,
    PrimitiveType::F64,
    PrimitiveType::Fixed32,
    PrimitiveType::Fixed64,
    PrimitiveType::Void,
];

const SEMANTICS: [SemanticType; 6] = [
    SemanticType::String,
    SemanticType::Bytes,
    SemanticType::Rgb,
    SemanticType::Uuid,
    SemanticType::Timestamp,
    SemanticType::Hash,
];

const CMP_OPS: [CmpOp; 6] = [
    CmpOp::Eq,
    CmpOp::Ne,
    CmpOp::Lt,
    CmpOp::Gt,
    CmpOp::Le,
    CmpOp::Ge,
];

const EXCLUSIVE_HIGH: [bool; 2] = [false, true];

// ---------------------------------------------------------------------------
// The records in turn
// ---------------------------------------------------------------------------

/// Takes the records of a sheet one after another.
struct Reader<'a> {
    sheet: &'a [u8],
    names: &'a [u8],
    at: usize,
}

impl<'a> Reader<'a> {
    /// The next record's kind, none at the end.
    fn kind(&self) -> Option<u8> {
        self.sheet.get(self.at * RECORD).copied()
    }

    fn take(&mut self) -> Result<Record<'a>, String> {
        let bytes = self.sheet.get(self.at * RECORD..(self.at + 1) * RECORD);
        let record = Record {
            bytes: bytes.ok_or_else(|| self.misplaced("a record"))?,
            index: self.at,
        };
        if record.bytes[3] != 0 {
            return Err(record.fault("byte 3 is not 0"));
        }
        self.at += 1;
        Ok(record)
    }

    fn misplaced(&self, due: &str) -> String {
        match self.kind() {
            Some(kind) => format!("record {}: kind {kind} where {due} is due", self.at),
            None => format!("the sheet ends where {due} is due"),
        }
    }

    fn name(&self, record: Record<'a>) -> Result<SmolStr, String> {
        let start = record.u32_at(4) as usize;
        let end = start + usize::from(record.bytes[2]);
        let part = self.names.get(start..end);
        let part = part.ok_or_else(|| record.fault("a name beyond the names text"))?;
        let text = std::str::from_utf8(part).map_err(|_| record.fault("a name is not UTF-8"))?;
        Ok(SmolStr::new(text))
    }

    fn spanned_name(&self, record: Record<'a>) -> Result<Spanned<SmolStr>, String> {
        Ok(Spanned::new(self.name(record)?, record.span()))
    }

    // --- context ---

    fn known(&mut self) -> Result<Known, String> {
        let record = self.take()?;
        let (name, kind) = (self.name(record)?, record.by_sub(&DECL_KINDS)?);
        let inner = match kind {
            DeclKind::Newtype => Some(self.type_expr(1)?),
            _ => None,
        };
        let span = record.span();
        let constant = (kind == DeclKind::Const).then(|| ConstDecl {
            annotations: Vec::new(),
            name: Spanned::new(name.clone(), span),
            ty: Spanned::new(TypeExpr::Primitive(PrimitiveType::U8), span),
            value: Spanned::new(ConstExpr::Int(0), span),
        });
        Ok(Known {
            name,
            kind,
            span,
            inner,
            constant,
        })
    }

    fn imported(&mut self) -> Result<SmolStr, String> {
        let record = self.take()?;
        self.name(record)
    }

    // --- declaration ---

    fn declaration(&mut self) -> Result<Decl, String> {
        if self.kind() != Some(10) {
            return Err(self.misplaced("a head"));
        }
        let head = self.take()?;
        let (annotations, name) = (Vec::new(), self.spanned_name(head)?);
        Ok(match head.sub() {
            0 => Decl::Message(MessageDecl {
                annotations,
                name,
                body: self.field_list()?,
            }),
            1 => Decl::Enum(EnumDecl {
                annotations,
                name,
                backing: self.backing()?,
                body: self.enum_body()?,
            }),
            2 => Decl::Flags(FlagsDecl {
                annotations,
                name,
                body: self.flags_body()?,
            }),
            3 => Decl::Union(UnionDecl {
                annotations,
                name,
                body: self.union_body()?,
            }),
            4 => Decl::Newtype(NewtypeDecl {
                annotations,
                name,
                inner_type: self.type_expr(1)?,
            }),
            _ => return Err(head.fault("an unknown sub")),
        })
    }

    fn backing(&mut self) -> Result<Option<Spanned<EnumBacking>>, String> {
        if self.kind() != Some(16) {
            return Ok(None);
        }
        let record = self.take()?;
        let backing = match record.sub() {
            0 => EnumBacking::U8,
            1 => EnumBacking::U16,
            2 => EnumBacking::U32,
            3 => EnumBacking::U64,
            _ => return Err(record.fault("an unknown sub")),
        };
        Ok(Some(Spanned::new(backing, record.span())))
    }

    fn enum_body(&mut self) -> Result<Vec<EnumBodyItem>, String> {
        let mut body = Vec::new();
        loop {
            body.push(match self.kind() {
                Some(14) => EnumBodyItem::Variant(self.enum_variant()?),
                Some(15) => EnumBodyItem::Tombstone(self.tombstone()?),
                _ => return Ok(body),
            });
        }
    }

    fn enum_variant(&mut self) -> Result<Spanned<EnumVariant>, String> {
        let record = self.take()?;
        let variant = EnumVariant {
            annotations: Vec::new(),
            name: self.spanned_name(record)?,
            ordinal: Spanned::new(record.ordinal()?, record.ordinal_span()),
        };
        Ok(Spanned::new(variant, record.span()))
    }

    fn flags_body(&mut self) -> Result<Vec<FlagsBodyItem>, String> {
        let mut body = Vec::new();
        loop {
            body.push(match self.kind() {
                Some(14) => FlagsBodyItem::Bit(self.flags_bit()?),
                Some(15) => FlagsBodyItem::Tombstone(self.tombstone()?),
                _ => return Ok(body),
            });
        }
    }

    fn flags_bit(&mut self) -> Result<Spanned<FlagsBit>, String> {
        let record = self.take()?;
        let bit = FlagsBit {
            annotations: Vec::new(),
            name: self.spanned_name(record)?,
            ordinal: Spanned::new(record.ordinal()?, record.ordinal_span()),
        };
        Ok(Spanned::new(bit, record.span()))
    }

    fn union_body(&mut self) -> Result<Vec<UnionBodyItem>, String> {
        let mut body = Vec::new();
        loop {
            body.push(match self.kind() {
                Some(14) => UnionBodyItem::Variant(self.union_variant()?),
                Some(15) => UnionBodyItem::Tombstone(self.tombstone()?),
                _ => return Ok(body),
            });
        }
    }

    fn union_variant(&mut self) -> Result<Spanned<UnionVariant>, String> {
        let record = self.take()?;
        let variant = UnionVariant {
            annotations: Vec::new(),
            name: self.spanned_name(record)?,
            ordinal: Spanned::new(record.ordinal()?, record.ordinal_span()),
            fields: self.field_list()?,
        };
        Ok(Spanned::new(variant, record.span()))
    }

    fn tombstone(&mut self) -> Result<Spanned<Tombstone>, String> {
        let record = self.take()?;
        let tombstone = Tombstone {
            ordinal: Spanned::new(record.ordinal()?, record.span()),
            args: Vec::new(),
            original_type: None,
        };
        Ok(Spanned::new(tombstone, record.span()))
    }

    // --- field list ---

    fn field_list(&mut self) -> Result<Vec<MessageBodyItem>, String> {
        let mut body = Vec::new();
        loop {
            body.push(match self.kind() {
                Some(11) => MessageBodyItem::Field(self.field()?),
                Some(12) => MessageBodyItem::Tombstone(self.tombstone()?),
                Some(13) => MessageBodyItem::Invariant(self.invariant()?),
                _ => return Ok(body),
            });
        }
    }

    /// An invariant; its condition is not on the sheet, and the check reads none.
    fn invariant(&mut self) -> Result<Spanned<MessageInvariant>, String> {
        let span = self.take()?.span();
        let condition = WhereExpr::Cmp {
            op: CmpOp::Eq,
            operand: Box::new(Spanned::new(WhereOperand::Value, span)),
        };
        let invariant = MessageInvariant {
            name: None,
            condition: Spanned::new(condition, span),
        };
        Ok(Spanned::new(invariant, span))
    }

    /// A field. Its annotations stand in one row on the sheet; here the row is cut
    /// into the three lists, in thirds, so that each of them is in use.
    fn field(&mut self) -> Result<Spanned<MessageField>, String> {
        let record = self.take()?;
        let name = self.spanned_name(record)?;
        let ordinal = Spanned::new(record.ordinal()?, record.ordinal_span());
        let mut pre_annotations = self.annotations()?;
        let row = pre_annotations.len();
        let post_type_annotations = pre_annotations.split_off((2 * row).div_ceil(3));
        let post_ordinal_annotations = pre_annotations.split_off(row.div_ceil(3));
        let ty = self.type_expr(1)?;
        let where_clause = match self.kind() {
            Some(50..=56) => Some(self.where_expr(1)?),
            _ => None,
        };
        let field = MessageField {
            pre_annotations,
            name,
            ordinal,
            post_ordinal_annotations,
            ty,
            post_type_annotations,
            where_clause,
        };
        Ok(Spanned::new(field, record.span()))
    }

    fn annotations(&mut self) -> Result<Vec<Annotation>, String> {
        let mut row = Vec::new();
        while self.kind() == Some(20) {
            let record = self.take()?;
            let name = self.spanned_name(record)?;
            let mut args = Vec::new();
            while self.kind() == Some(21) {
                args.push(self.annotation_arg()?);
            }
            row.push(Annotation {
                span: record.span(),
                name,
                args: (!args.is_empty()).then_some(args),
            });
        }
        Ok(row)
    }

    /// An argument; a name of length 0 is "no key".
    fn annotation_arg(&mut self) -> Result<AnnotationArg, String> {
        let record = self.take()?;
        let name = self.spanned_name(record)?;
        let value = match record.sub() {
            0 => AnnotationValue::Int(record.value()),
            1 => AnnotationValue::Hex(record.value()),
            2 => AnnotationValue::Str(String::new()),
            3 => AnnotationValue::Bool(record.value() != 0),
            4 => AnnotationValue::Ident(SmolStr::default()),
            5 => AnnotationValue::UpperIdent(SmolStr::default()),
            _ => return Err(record.fault("an unknown sub")),
        };
        Ok(AnnotationArg {
            span: record.span(),
            key: (!name.node.is_empty()).then_some(name),
            value: Spanned::new(value, record.span()),
        })
    }

    // --- types ---

    fn type_expr(&mut self, depth: u32) -> Result<Spanned<TypeExpr>, String> {
        if !matches!(self.kind(), Some(30..=48)) {
            return Err(self.misplaced("a type"));
        }
        let record = self.take()?;
        if depth > DEPTH_MAX {
            return Err(record.fault("depth 65"));
        }
        let node = match record.kind() {
            30 => TypeExpr::Primitive(record.by_sub(&PRIMITIVES)?),
            31 => TypeExpr::SubByte(SubByteType {
                signed: record.value() >> 8 & 1 == 1,
                bits: record.value() as u8,
            }),
            32 => TypeExpr::Semantic(record.by_sub(&SEMANTICS)?),
            33 => TypeExpr::Named(self.name(record)?),
            34 => {
                let both = self.name(record)?;
                let (namespace, name) = both.split_once('.').unwrap_or((&both, ""));
                TypeExpr::Qualified(namespace.into(), name.into())
            }
            35 => TypeExpr::Generic(self.name(record)?, self.part(depth)?),
            36 => TypeExpr::Optional(self.part(depth)?),
            37 => TypeExpr::Array(self.part(depth)?),
            38 => TypeExpr::FixedArray(self.part(depth)?, record.value()),
            39 => TypeExpr::Set(self.part(depth)?),
            40 => TypeExpr::Map(self.part(depth)?, self.part(depth)?),
            41 => TypeExpr::Result(self.part(depth)?, self.part(depth)?),
            42 => TypeExpr::Vec2(self.part(depth)?),
            43 => TypeExpr::Vec3(self.part(depth)?),
            44 => TypeExpr::Vec4(self.part(depth)?),
            45 => TypeExpr::Quat(self.part(depth)?),
            46 => TypeExpr::Mat3(self.part(depth)?),
            47 => TypeExpr::Mat4(self.part(depth)?),
            _ => TypeExpr::BitsInline(self.bit_names()?),
        };
        Ok(Spanned::new(node, record.span()))
    }

    fn part(&mut self, depth: u32) -> Result<Box<Spanned<TypeExpr>>, String> {
        Ok(Box::new(self.type_expr(depth + 1)?))
    }

    fn bit_names(&mut self) -> Result<Vec<SmolStr>, String> {
        let mut names = Vec::new();
        while self.kind() == Some(22) {
            let record = self.take()?;
            names.push(self.name(record)?);
        }
        Ok(names)
    }

    // --- conditions ---

    fn where_expr(&mut self, depth: u32) -> Result<Spanned<WhereExpr>, String> {
        if !matches!(self.kind(), Some(50..=56)) {
            return Err(self.misplaced("a condition"));
        }
        let record = self.take()?;
        if depth > DEPTH_MAX {
            return Err(record.fault("depth 65"));
        }
        let node = match record.kind() {
            50 => WhereExpr::And(self.condition_part(depth)?, self.condition_part(depth)?),
            51 => WhereExpr::Or(self.condition_part(depth)?, self.condition_part(depth)?),
            52 => WhereExpr::Not(self.condition_part(depth)?),
            53 => WhereExpr::Cmp {
                op: record.by_sub(&CMP_OPS)?,
                operand: self.operand(depth)?,
            },
            54 => WhereExpr::Range {
                low: self.operand(depth)?,
                high: self.operand(depth)?,
                exclusive_high: record.by_sub(&EXCLUSIVE_HIGH)?,
            },
            55 => WhereExpr::LenCmp {
                op: record.by_sub(&CMP_OPS)?,
                operand: self.operand(depth)?,
            },
            _ => WhereExpr::LenRange {
                low: self.operand(depth)?,
                high: self.operand(depth)?,
                exclusive_high: record.by_sub(&EXCLUSIVE_HIGH)?,
            },
        };
        Ok(Spanned::new(node, record.span()))
    }

    fn condition_part(&mut self, depth: u32) -> Result<Box<Spanned<WhereExpr>>, String> {
        Ok(Box::new(self.where_expr(depth + 1)?))
    }

    /// An operand, one deeper than its condition.
    fn operand(&mut self, depth: u32) -> Result<Box<Spanned<WhereOperand>>, String> {
        if self.kind() != Some(60) {
            return Err(self.misplaced("an operand"));
        }
        let record = self.take()?;
        if depth + 1 > DEPTH_MAX {
            return Err(record.fault("depth 65"));
        }
        let node = match record.sub() {
            0 => WhereOperand::Int(record.value() as i64),
            1 => WhereOperand::Float(f64::from_bits(record.value())),
            2 => WhereOperand::String(String::new()),
            3 => WhereOperand::Bool(record.value() != 0),
            4 => WhereOperand::Value,
            5 => WhereOperand::ConstRef(self.name(record)?),
            _ => return Err(record.fault("an unknown sub")),
        };
        Ok(Box::new(Spanned::new(node, record.span())))
    }
}
