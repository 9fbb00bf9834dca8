//! Short ways to write declarations in tests.
#![allow(dead_code)] // each test file uses some of them

pub mod generate;

use vexil_check::format::{Record, RECORD};
use vexil_check::tree::*;
use vexil_check::{Context, Sheet};

/// A span of its own for each offset.
pub fn at(offset: u32) -> Span {
    let len = offset % 7 + 1;
    Span { offset, len }
}

pub fn name(text: &str) -> Spanned<Name> {
    Spanned::new(text.into(), at(1))
}

pub fn spanned<T>(node: T) -> Spanned<T> {
    Spanned::new(node, at(2))
}

pub fn boxed<T>(node: T) -> Box<Spanned<T>> {
    Box::new(Spanned::new(node, at(3)))
}

pub fn primitive(p: PrimitiveType) -> TypeExpr {
    TypeExpr::Primitive(p)
}

pub fn string() -> TypeExpr {
    TypeExpr::Semantic(SemanticType::String)
}

pub fn named(text: &str) -> TypeExpr {
    TypeExpr::Named(text.into())
}

/// A field; its name stands at 10, its ordinal at 20, its type at 30.
pub fn field(text: &str, ordinal: u64, ty: TypeExpr) -> MessageField {
    MessageField {
        name: Spanned::new(text.into(), at(10)),
        ordinal: Spanned::new(ordinal, at(20)),
        annotations: vec![],
        ty: Spanned::new(ty, at(30)),
        where_clause: None,
    }
}

/// An annotation without arguments.
pub fn annotation(text: &str) -> Annotation {
    Annotation {
        name: text.into(),
        span: at(40),
        args: vec![],
    }
}

/// An annotation with one argument.
pub fn annotation_with(text: &str, key: Option<&str>, value: AnnotationValue) -> Annotation {
    let arg = AnnotationArg {
        key: key.map(Name::from),
        value,
        span: at(41),
    };
    Annotation {
        args: vec![arg],
        ..annotation(text)
    }
}

pub fn tombstone(ordinal: u64) -> Tombstone {
    Tombstone {
        ordinal,
        span: at(50),
    }
}

pub fn variant(text: &str, ordinal: u64) -> Variant {
    Variant {
        name: Spanned::new(text.into(), at(60)),
        ordinal: Spanned::new(ordinal, at(61)),
    }
}

pub fn cmp(op: CmpOp, operand: WhereOperand) -> WhereExpr {
    let operand = Spanned::new(operand, at(70));
    WhereExpr::Cmp { op, operand }
}

pub fn decl(body: Body) -> Decl {
    Decl {
        name: name("Head"),
        body,
    }
}

pub fn message(items: Vec<MessageBodyItem>) -> Decl {
    decl(Body::Message(items))
}

pub fn fields(fields: Vec<MessageField>) -> Decl {
    message(fields.into_iter().map(MessageBodyItem::Field).collect())
}

/// A message of one field `f` with annotations and a condition.
pub fn one(ty: TypeExpr, annotations: Vec<Annotation>, condition: Option<WhereExpr>) -> Decl {
    fields(vec![MessageField {
        annotations,
        where_clause: condition.map(|c| Spanned::new(c, at(80))),
        ..field("f", 0, ty)
    }])
}

/// The sheet of a declaration around which nothing is known.
pub fn alone(decl: &Decl) -> Sheet {
    Context::new()
        .sheet(decl)
        .expect("a sheet holds the declaration")
}

/// The class numbers of a sheet that is accepted.
pub fn classes(sheet: &Sheet) -> Vec<u16> {
    let report = sheet.report();
    assert!(
        matches!(report.answer, vexil_check::Answer::Accepted { .. }),
        "{report}"
    );
    report.violations.iter().map(|v| v.class.number()).collect()
}

/// The records of a sheet.
pub fn records(sheet: &[u8]) -> Vec<Record> {
    sheet
        .chunks_exact(RECORD)
        .map(|bytes| Record::decode(bytes.try_into().unwrap()))
        .collect()
}

/// The sheet of records.
pub fn sheet_of(records: &[Record]) -> Vec<u8> {
    records.iter().flat_map(Record::encode).collect()
}
