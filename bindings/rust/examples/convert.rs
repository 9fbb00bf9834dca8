//! Converts a compiler's tree to sheets and prints the violations of each declaration.
//!
//! `ast` stands for the tree of a compiler: the parts that the check asks for, of the shape of
//! vexil-lang's `ast/mod.rs`. What follows it is all that such a compiler needs.
//!
//! Run it with `cargo run --example convert`.

use vexil_check::tree as sheet;
use vexil_check::{BuildError, Context, Report};

/// A compiler's own tree.
#[allow(dead_code)] // the schema below does not use every part
mod ast {
    #[derive(Clone, Copy)]
    pub struct Span {
        pub offset: u32,
        pub len: u32,
    }

    pub struct Spanned<T> {
        pub node: T,
        pub span: Span,
    }

    pub type Ident = Spanned<String>;
    pub type Part<T> = Box<Spanned<T>>;

    pub struct Schema {
        pub imports: Vec<Spanned<ImportKind>>,
        pub declarations: Vec<Spanned<Decl>>,
    }

    pub enum ImportKind {
        Wildcard,
        Named { names: Vec<Ident> },
        Aliased { alias: Ident },
    }

    pub enum Decl {
        Message(MessageDecl),
        Enum(EnumDecl),
        Flags(FlagsDecl),
        Union(UnionDecl),
        Newtype(NewtypeDecl),
        Config { name: Ident },
        Alias { name: Ident },
        Const { name: Ident },
        Trait { name: Ident },
        Impl { trait_name: Ident },
    }

    pub struct MessageDecl {
        pub name: Ident,
        pub body: Vec<MessageBodyItem>,
    }

    pub enum MessageBodyItem {
        Field(Spanned<MessageField>),
        Tombstone(Spanned<Tombstone>),
        Invariant(Spanned<WhereExpr>),
    }

    pub struct MessageField {
        pub pre_annotations: Vec<Annotation>,
        pub name: Ident,
        pub ordinal: Spanned<u32>,
        pub post_ordinal_annotations: Vec<Annotation>,
        pub ty: Spanned<TypeExpr>,
        pub post_type_annotations: Vec<Annotation>,
        pub where_clause: Option<Spanned<WhereExpr>>,
    }

    pub struct Tombstone {
        pub ordinal: Spanned<u32>,
        pub reason: Option<String>,
    }

    pub struct EnumDecl {
        pub name: Ident,
        pub backing: Option<Spanned<EnumBacking>>,
        pub body: Vec<EnumBodyItem>,
    }

    pub enum EnumBodyItem {
        Variant(Spanned<EnumVariant>),
        Tombstone(Spanned<Tombstone>),
    }

    pub struct EnumVariant {
        pub name: Ident,
        pub ordinal: Spanned<u32>,
    }

    pub enum EnumBacking {
        U8,
        U16,
        U32,
        U64,
    }

    pub struct FlagsDecl {
        pub name: Ident,
        pub body: Vec<FlagsBodyItem>,
    }

    pub enum FlagsBodyItem {
        Bit(Spanned<FlagsBit>),
        Tombstone(Spanned<Tombstone>),
    }

    pub struct FlagsBit {
        pub name: Ident,
        pub ordinal: Spanned<u32>,
    }

    pub struct UnionDecl {
        pub name: Ident,
        pub body: Vec<UnionBodyItem>,
    }

    pub enum UnionBodyItem {
        Variant(Spanned<UnionVariant>),
        Tombstone(Spanned<Tombstone>),
    }

    pub struct UnionVariant {
        pub name: Ident,
        pub ordinal: Spanned<u32>,
        pub fields: Vec<MessageBodyItem>,
    }

    pub struct NewtypeDecl {
        pub name: Ident,
        pub inner_type: Spanned<TypeExpr>,
    }

    pub struct Annotation {
        pub span: Span,
        pub name: Ident,
        pub args: Option<Vec<AnnotationArg>>,
    }

    pub struct AnnotationArg {
        pub span: Span,
        pub key: Option<Ident>,
        pub value: Spanned<AnnotationValue>,
    }

    pub enum AnnotationValue {
        Int(u64),
        Hex(u64),
        Str(String),
        Bool(bool),
        Ident(String),
        UpperIdent(String),
    }

    pub enum TypeExpr {
        Primitive(PrimitiveType),
        SubByte { signed: bool, bits: u8 },
        Semantic(SemanticType),
        Named(String),
        Qualified(String, String),
        Generic(String, Part<TypeExpr>),
        Optional(Part<TypeExpr>),
        Array(Part<TypeExpr>),
        FixedArray(Part<TypeExpr>, u64),
        Set(Part<TypeExpr>),
        Map(Part<TypeExpr>, Part<TypeExpr>),
        Result(Part<TypeExpr>, Part<TypeExpr>),
        Vec2(Part<TypeExpr>),
        Vec3(Part<TypeExpr>),
        Vec4(Part<TypeExpr>),
        Quat(Part<TypeExpr>),
        Mat3(Part<TypeExpr>),
        Mat4(Part<TypeExpr>),
        BitsInline(Vec<String>),
    }

    pub enum PrimitiveType {
        Bool,
        U8,
        U16,
        U32,
        U64,
        I8,
        I16,
        I32,
        I64,
        F32,
        F64,
        Fixed32,
        Fixed64,
        Void,
    }

    pub enum SemanticType {
        String,
        Bytes,
        Rgb,
        Uuid,
        Timestamp,
        Hash,
    }

    pub enum WhereExpr {
        And(Part<WhereExpr>, Part<WhereExpr>),
        Or(Part<WhereExpr>, Part<WhereExpr>),
        Not(Part<WhereExpr>),
        Cmp {
            op: CmpOp,
            operand: Part<WhereOperand>,
        },
        Range {
            low: Part<WhereOperand>,
            high: Part<WhereOperand>,
            exclusive_high: bool,
        },
        LenCmp {
            op: CmpOp,
            operand: Part<WhereOperand>,
        },
        LenRange {
            low: Part<WhereOperand>,
            high: Part<WhereOperand>,
            exclusive_high: bool,
        },
    }

    pub enum CmpOp {
        Eq,
        Ne,
        Lt,
        Gt,
        Le,
        Ge,
    }

    pub enum WhereOperand {
        Int(i64),
        Float(f64),
        String(String),
        Bool(bool),
        Value,
        ConstRef(String),
    }
}

fn span(s: ast::Span) -> sheet::Span {
    sheet::Span {
        offset: s.offset,
        len: s.len,
    }
}

/// The same value on the sheet's side, with its span.
fn spanned<A, B>(from: &ast::Spanned<A>, node: impl Fn(&A) -> B) -> sheet::Spanned<B> {
    sheet::Spanned::new(node(&from.node), span(from.span))
}

fn boxed<A, B>(from: &ast::Spanned<A>, node: impl Fn(&A) -> B) -> Box<sheet::Spanned<B>> {
    Box::new(spanned(from, node))
}

fn ident(name: &ast::Ident) -> sheet::Spanned<sheet::Name> {
    spanned(name, |text| text.as_str().into())
}

fn ordinal(ordinal: &ast::Spanned<u32>) -> sheet::Spanned<u64> {
    spanned(ordinal, |o| (*o).into())
}

/// Converts enums whose variants have the same names and no fields.
macro_rules! same {
    ($function:ident, $name:ident: $($variant:ident)*) => {
        fn $function(from: &ast::$name) -> sheet::$name {
            match from {
                $(ast::$name::$variant => sheet::$name::$variant,)*
            }
        }
    };
}

same!(backing, EnumBacking: U8 U16 U32 U64);
same!(cmp_op, CmpOp: Eq Ne Lt Gt Le Ge);
same!(semantic, SemanticType: String Bytes Rgb Uuid Timestamp Hash);
same!(primitive, PrimitiveType:
    Bool U8 U16 U32 U64 I8 I16 I32 I64 F32 F64 Fixed32 Fixed64 Void);

fn type_expr(ty: &ast::TypeExpr) -> sheet::TypeExpr {
    use ast::TypeExpr as From;
    use sheet::TypeExpr as To;
    match ty {
        From::Primitive(p) => To::Primitive(primitive(p)),
        From::SubByte { signed, bits } => To::SubByte(sheet::SubByteType {
            signed: *signed,
            bits: *bits,
        }),
        From::Semantic(s) => To::Semantic(semantic(s)),
        From::Named(name) => To::Named(name.as_str().into()),
        From::Qualified(space, name) => To::Qualified(space.as_str().into(), name.as_str().into()),
        From::Generic(name, of) => To::Generic(name.as_str().into(), boxed(of, type_expr)),
        From::Optional(of) => To::Optional(boxed(of, type_expr)),
        From::Array(of) => To::Array(boxed(of, type_expr)),
        From::FixedArray(of, size) => To::FixedArray(boxed(of, type_expr), *size),
        From::Set(of) => To::Set(boxed(of, type_expr)),
        From::Map(key, value) => To::Map(boxed(key, type_expr), boxed(value, type_expr)),
        From::Result(ok, err) => To::Result(boxed(ok, type_expr), boxed(err, type_expr)),
        From::Vec2(of) => To::Vec2(boxed(of, type_expr)),
        From::Vec3(of) => To::Vec3(boxed(of, type_expr)),
        From::Vec4(of) => To::Vec4(boxed(of, type_expr)),
        From::Quat(of) => To::Quat(boxed(of, type_expr)),
        From::Mat3(of) => To::Mat3(boxed(of, type_expr)),
        From::Mat4(of) => To::Mat4(boxed(of, type_expr)),
        From::BitsInline(names) => {
            To::BitsInline(names.iter().map(|name| name.as_str().into()).collect())
        }
    }
}

fn where_expr(condition: &ast::WhereExpr) -> sheet::WhereExpr {
    use ast::WhereExpr as From;
    use sheet::WhereExpr as To;
    match condition {
        From::And(a, b) => To::And(boxed(a, where_expr), boxed(b, where_expr)),
        From::Or(a, b) => To::Or(boxed(a, where_expr), boxed(b, where_expr)),
        From::Not(a) => To::Not(boxed(a, where_expr)),
        From::Cmp { op, operand } => To::Cmp {
            op: cmp_op(op),
            operand: spanned(operand, where_operand),
        },
        From::LenCmp { op, operand } => To::LenCmp {
            op: cmp_op(op),
            operand: spanned(operand, where_operand),
        },
        From::Range {
            low,
            high,
            exclusive_high,
        } => To::Range {
            low: spanned(low, where_operand),
            high: spanned(high, where_operand),
            exclusive_high: *exclusive_high,
        },
        From::LenRange {
            low,
            high,
            exclusive_high,
        } => To::LenRange {
            low: spanned(low, where_operand),
            high: spanned(high, where_operand),
            exclusive_high: *exclusive_high,
        },
    }
}

fn where_operand(operand: &ast::WhereOperand) -> sheet::WhereOperand {
    use ast::WhereOperand as From;
    use sheet::WhereOperand as To;
    match operand {
        From::Int(value) => To::Int(*value),
        From::Float(value) => To::Float(*value),
        From::String(_) => To::String,
        From::Bool(value) => To::Bool(*value),
        From::Value => To::Value,
        From::ConstRef(name) => To::ConstRef(name.as_str().into()),
    }
}

fn annotation(annotation: &ast::Annotation) -> sheet::Annotation {
    use ast::AnnotationValue as From;
    use sheet::AnnotationValue as To;
    let argument = |arg: &ast::AnnotationArg| sheet::AnnotationArg {
        key: arg.key.as_ref().map(|key| key.node.as_str().into()),
        value: match arg.value.node {
            From::Int(value) => To::Int(value),
            From::Hex(value) => To::Hex(value),
            From::Str(_) => To::Str,
            From::Bool(value) => To::Bool(value),
            From::Ident(_) => To::Ident,
            From::UpperIdent(_) => To::UpperIdent,
        },
        span: span(arg.span),
    };
    sheet::Annotation {
        name: annotation.name.node.as_str().into(),
        span: span(annotation.span),
        args: annotation.args.iter().flatten().map(argument).collect(),
    }
}

/// A field's annotations in the order in which the check reads them.
fn annotations(field: &ast::MessageField) -> Vec<sheet::Annotation> {
    let before = field.pre_annotations.iter();
    before
        .chain(&field.post_ordinal_annotations)
        .chain(&field.post_type_annotations)
        .map(annotation)
        .collect()
}

fn tombstone(tombstone: &ast::Spanned<ast::Tombstone>) -> sheet::Tombstone {
    sheet::Tombstone {
        ordinal: tombstone.node.ordinal.node.into(),
        span: span(tombstone.span),
    }
}

fn message_item(item: &ast::MessageBodyItem) -> sheet::MessageBodyItem {
    use ast::MessageBodyItem as From;
    use sheet::MessageBodyItem as To;
    match item {
        From::Field(field) => To::Field(sheet::MessageField {
            name: ident(&field.node.name),
            ordinal: ordinal(&field.node.ordinal),
            annotations: annotations(&field.node),
            ty: spanned(&field.node.ty, type_expr),
            where_clause: field
                .node
                .where_clause
                .as_ref()
                .map(|condition| spanned(condition, where_expr)),
        }),
        From::Tombstone(t) => To::Tombstone(tombstone(t)),
        From::Invariant(invariant) => To::Invariant(span(invariant.span)),
    }
}

fn enum_item(item: &ast::EnumBodyItem) -> sheet::EnumBodyItem {
    match item {
        ast::EnumBodyItem::Variant(v) => sheet::EnumBodyItem::Variant(sheet::Variant {
            name: ident(&v.node.name),
            ordinal: ordinal(&v.node.ordinal),
        }),
        ast::EnumBodyItem::Tombstone(t) => sheet::EnumBodyItem::Tombstone(tombstone(t)),
    }
}

fn flags_item(item: &ast::FlagsBodyItem) -> sheet::FlagsBodyItem {
    match item {
        ast::FlagsBodyItem::Bit(bit) => sheet::FlagsBodyItem::Bit(sheet::Variant {
            name: ident(&bit.node.name),
            ordinal: ordinal(&bit.node.ordinal),
        }),
        ast::FlagsBodyItem::Tombstone(t) => sheet::FlagsBodyItem::Tombstone(tombstone(t)),
    }
}

fn union_item(item: &ast::UnionBodyItem) -> sheet::UnionBodyItem {
    match item {
        ast::UnionBodyItem::Variant(v) => sheet::UnionBodyItem::Variant(sheet::UnionVariant {
            name: ident(&v.node.name),
            ordinal: ordinal(&v.node.ordinal),
            fields: v.node.fields.iter().map(message_item).collect(),
        }),
        ast::UnionBodyItem::Tombstone(t) => sheet::UnionBodyItem::Tombstone(tombstone(t)),
    }
}

/// The declaration, if it is one that the check is for.
fn decl(decl: &ast::Decl) -> Option<sheet::Decl> {
    let (name, body) = match decl {
        ast::Decl::Message(d) => {
            let items = d.body.iter().map(message_item).collect();
            (&d.name, sheet::Body::Message(items))
        }
        ast::Decl::Enum(d) => {
            let backing = d.backing.as_ref().map(|b| spanned(b, backing));
            let body = d.body.iter().map(enum_item).collect();
            (&d.name, sheet::Body::Enum { backing, body })
        }
        ast::Decl::Flags(d) => {
            let items = d.body.iter().map(flags_item).collect();
            (&d.name, sheet::Body::Flags(items))
        }
        ast::Decl::Union(d) => {
            let items = d.body.iter().map(union_item).collect();
            (&d.name, sheet::Body::Union(items))
        }
        ast::Decl::Newtype(d) => {
            let inner = spanned(&d.inner_type, type_expr);
            (&d.name, sheet::Body::Newtype(inner))
        }
        _ => return None,
    };
    let name = ident(name);
    Some(sheet::Decl { name, body })
}

/// What the schema's declarations and imports make known. An impl declares no name.
fn context(schema: &ast::Schema) -> Result<Context, BuildError> {
    use sheet::DeclKind as Kind;
    let mut context = Context::new();
    for declaration in &schema.declarations {
        let (name, kind) = match &declaration.node {
            ast::Decl::Message(d) => (&d.name, Kind::Message),
            ast::Decl::Enum(d) => (&d.name, Kind::Enum),
            ast::Decl::Flags(d) => (&d.name, Kind::Flags),
            ast::Decl::Union(d) => (&d.name, Kind::Union),
            ast::Decl::Newtype(d) => (&d.name, Kind::Newtype(spanned(&d.inner_type, type_expr))),
            ast::Decl::Config { name } => (name, Kind::Config),
            ast::Decl::Alias { name } => (name, Kind::Alias),
            ast::Decl::Const { name } => (name, Kind::Const),
            ast::Decl::Trait { name } => (name, Kind::Trait),
            ast::Decl::Impl { .. } => continue,
        };
        context.declare(&ident(name), &kind)?;
    }
    for import in &schema.imports {
        match &import.node {
            ast::ImportKind::Wildcard => context.wildcard(span(import.span))?,
            ast::ImportKind::Named { names } => {
                for name in names {
                    context.import(&ident(name))?;
                }
            }
            ast::ImportKind::Aliased { .. } => {}
        }
    }
    Ok(context)
}

/// The reports of a schema's declarations, under their names.
fn reports(schema: &ast::Schema) -> Result<Vec<(String, Report)>, BuildError> {
    let context = context(schema)?;
    let mut reports = Vec::new();
    for declaration in schema.declarations.iter().filter_map(|d| decl(&d.node)) {
        let name = String::from_utf8_lossy(&declaration.name.node.0).into_owned();
        reports.push((name, context.sheet(&declaration)?.report()));
    }
    Ok(reports)
}

/// Words of the source below, with their places.
fn find<T>(word: &str, node: T) -> ast::Spanned<T> {
    let offset = SOURCE.find(word).expect("the source has the word") as u32;
    let len = word.len() as u32;
    ast::Spanned {
        node,
        span: ast::Span { offset, len },
    }
}

fn word(text: &str) -> ast::Ident {
    find(text, text.to_string())
}

/// What a parser would have read.
const SOURCE: &str = "\
message Request {
    room    @0 : string where len(value) in 1..MAX_ROOM
    @removed(1)
    periods @1 : set<f32>
    @limit(0x0) seats @3 : u16
}
enum Status : u8 { Open @0  Closed @256 }
newtype Saved : Settings
config Settings {}
";

fn schema() -> ast::Schema {
    use ast::*;
    let field = |name: &str, ordinal: Spanned<u32>, ty: Spanned<TypeExpr>| MessageField {
        pre_annotations: vec![],
        name: word(name),
        ordinal,
        post_ordinal_annotations: vec![],
        ty,
        post_type_annotations: vec![],
        where_clause: None,
    };
    let room = MessageField {
        where_clause: Some(find(
            "len(value) in 1..MAX_ROOM",
            WhereExpr::LenRange {
                low: Box::new(find("1..", WhereOperand::Int(1))),
                high: Box::new(find(
                    "MAX_ROOM",
                    WhereOperand::ConstRef("MAX_ROOM".to_string()),
                )),
                exclusive_high: false,
            },
        )),
        ..field(
            "room",
            find("@0", 0),
            find("string", TypeExpr::Semantic(SemanticType::String)),
        )
    };
    let removed = Tombstone {
        ordinal: find("1)", 1),
        reason: None,
    };
    let element = find("f32", TypeExpr::Primitive(PrimitiveType::F32));
    let periods = field(
        "periods",
        find("@1", 1),
        find("set<f32>", TypeExpr::Set(Box::new(element))),
    );
    let zero = find("0x0", AnnotationValue::Hex(0));
    let limit = Annotation {
        span: find("@limit(0x0)", ()).span,
        name: word("limit"),
        args: Some(vec![AnnotationArg {
            span: zero.span,
            key: None,
            value: zero,
        }]),
    };
    let seats = MessageField {
        pre_annotations: vec![limit],
        ..field(
            "seats",
            find("@3", 3),
            find("u16", TypeExpr::Primitive(PrimitiveType::U16)),
        )
    };
    let request = MessageDecl {
        name: word("Request"),
        body: vec![
            MessageBodyItem::Field(find("room", room)),
            MessageBodyItem::Tombstone(find("@removed(1)", removed)),
            MessageBodyItem::Field(find("periods", periods)),
            MessageBodyItem::Field(find("seats", seats)),
        ],
    };
    let variant = |name: &str, ordinal: &str, value| {
        EnumBodyItem::Variant(find(
            name,
            EnumVariant {
                name: word(name),
                ordinal: find(ordinal, value),
            },
        ))
    };
    let status = EnumDecl {
        name: word("Status"),
        backing: Some(find("u8", EnumBacking::U8)),
        body: vec![variant("Open", "@0", 0), variant("Closed", "@256", 256)],
    };
    let saved = NewtypeDecl {
        name: word("Saved"),
        inner_type: find("Settings", TypeExpr::Named("Settings".to_string())),
    };
    let settings = Decl::Config {
        name: word("Settings"),
    };
    Schema {
        imports: vec![],
        declarations: vec![
            find("message", Decl::Message(request)),
            find("enum", Decl::Enum(status)),
            find("newtype", Decl::Newtype(saved)),
            find("config", settings),
        ],
    }
}

/// What the example prints: the lines of each declaration, and the class's name and the words of the
/// source beside each violation.
pub fn printed() -> Result<String, BuildError> {
    let mut printed = String::new();
    for (name, report) in reports(&schema())? {
        printed += &format!("{name}\n");
        for violation in &report.violations {
            let from = violation.span.offset as usize;
            let words = &SOURCE[from..from + violation.span.len as usize];
            printed += &format!("  {violation}    {} at `{words}`\n", violation.class);
        }
        printed += &format!("  {}\n", report.answer);
    }
    Ok(printed)
}

fn main() -> Result<(), BuildError> {
    print!("{}", printed()?);
    Ok(())
}
