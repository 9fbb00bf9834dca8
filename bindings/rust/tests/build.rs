//! Sheets laid out from values: their bytes, what the check says of them, and what is refused.

mod common;

use common::*;
use vexil_check::format::{kind, sub, Record, RECORD_LIMIT};
use vexil_check::tree::*;
use vexil_check::*;

fn u8_type() -> TypeExpr {
    primitive(PrimitiveType::U8)
}

fn kinds(sheet: &Sheet) -> Vec<(u8, u8)> {
    let pair = |r: &Record| (r.kind, r.sub);
    records(&sheet.records).iter().map(pair).collect()
}

fn name_of(sheet: &Sheet, record: &Record) -> Vec<u8> {
    let from = record.name_offset as usize;
    sheet.names[from..from + record.name_len as usize].to_vec()
}

fn fault(result: Result<Sheet, BuildError>) -> Fault {
    let error: Box<dyn std::error::Error> = Box::new(result.clone().unwrap_err());
    assert!(error.to_string().starts_with("the sheet cannot hold "));
    result.unwrap_err().fault
}

/// That the check accepts the sheet: no record out of order, no name or number out of range.
fn accepted(sheet: &Sheet) {
    let report = sheet.report();
    assert!(matches!(report.answer, Answer::Accepted { .. }), "{report}");
}

/// A type of every kind, each with its record's kind and sub.
fn types() -> Vec<(TypeExpr, Vec<(u8, u8)>)> {
    use PrimitiveType as P;
    use SemanticType as S;
    let mut types = Vec::new();
    let primitives = [
        P::Bool,
        P::U8,
        P::U16,
        P::U32,
        P::U64,
        P::I8,
        P::I16,
        P::I32,
        P::I64,
        P::F32,
        P::F64,
        P::Fixed32,
        P::Fixed64,
        P::Void,
    ];
    for (i, p) in primitives.into_iter().enumerate() {
        types.push((TypeExpr::Primitive(p), vec![(30, i as u8)]));
    }
    let sub_byte = SubByteType {
        signed: true,
        bits: 5,
    };
    types.push((TypeExpr::SubByte(sub_byte), vec![(31, 0)]));
    let semantics = [S::String, S::Bytes, S::Rgb, S::Uuid, S::Timestamp, S::Hash];
    for (i, s) in semantics.into_iter().enumerate() {
        types.push((TypeExpr::Semantic(s), vec![(32, i as u8)]));
    }
    let inner = || boxed(u8_type());
    types.push((named("N"), vec![(33, 0)]));
    types.push((TypeExpr::Qualified("ns".into(), "T".into()), vec![(34, 0)]));
    let wrapped: [(TypeExpr, u8); 11] = [
        (TypeExpr::Generic("G".into(), inner()), 35),
        (TypeExpr::Optional(inner()), 36),
        (TypeExpr::Array(inner()), 37),
        (TypeExpr::FixedArray(inner(), 9), 38),
        (TypeExpr::Set(inner()), 39),
        (TypeExpr::Vec2(inner()), 42),
        (TypeExpr::Vec3(inner()), 43),
        (TypeExpr::Vec4(inner()), 44),
        (TypeExpr::Quat(inner()), 45),
        (TypeExpr::Mat3(inner()), 46),
        (TypeExpr::Mat4(inner()), 47),
    ];
    for (ty, kind) in wrapped {
        types.push((ty, vec![(kind, 0), (30, 1)]));
    }
    let second = || boxed(string());
    let parts = |kind| vec![(kind, 0), (30, 1), (32, 0)];
    types.push((TypeExpr::Map(inner(), second()), parts(40)));
    types.push((TypeExpr::Result(inner(), second()), parts(41)));
    types.push((
        TypeExpr::BitsInline(vec!["a".into(), "b".into()]),
        vec![(48, 0), (22, 0), (22, 0)],
    ));
    types
}

#[test]
fn types_of_every_kind() {
    for (ty, expected) in types() {
        let sheet = alone(&one(ty.clone(), vec![], None));
        assert_eq!(kinds(&sheet)[2..], expected, "{ty:?}");
        accepted(&sheet);
        let sheet = alone(&decl(Body::Newtype(spanned(ty.clone()))));
        assert_eq!(kinds(&sheet)[1..], expected, "{ty:?}");
        accepted(&sheet);
        let mut context = Context::new();
        let newtype = DeclKind::Newtype(spanned(ty.clone()));
        context.declare(&name("Inner"), &newtype).unwrap();
        let sheet = context.sheet(&message(vec![])).unwrap();
        assert_eq!(kinds(&sheet)[1..=expected.len()], expected, "{ty:?}");
        accepted(&sheet);
    }
}

#[test]
fn values_of_types() {
    let value = |ty| records(&alone(&one(ty, vec![], None)).records)[2].value;
    let sub_byte = |signed, bits| value(TypeExpr::SubByte(SubByteType { signed, bits }));
    assert_eq!(sub_byte(false, 3), 3);
    assert_eq!(sub_byte(true, 3), 259);
    assert_eq!(value(TypeExpr::FixedArray(boxed(u8_type()), 9)), 9);
    let great = TypeExpr::FixedArray(boxed(u8_type()), u64::MAX);
    assert_eq!(value(great), u64::MAX);
}

#[test]
fn the_parts_of_a_nested_type_stand_in_preorder() {
    let key = TypeExpr::Optional(boxed(named("K")));
    let value = TypeExpr::Map(boxed(u8_type()), boxed(TypeExpr::Array(boxed(string()))));
    let ty = TypeExpr::Map(boxed(key), boxed(value));
    let expected = [40, 36, 33, 40, 30, 37, 32];
    let kinds: Vec<u8> = kinds(&alone(&one(ty, vec![], None)))[2..]
        .iter()
        .map(|(kind, _)| *kind)
        .collect();
    assert_eq!(kinds, expected);
}

#[test]
fn the_context() {
    let mut context = Context::new();
    let declared = [
        DeclKind::Message,
        DeclKind::Enum,
        DeclKind::Flags,
        DeclKind::Union,
        DeclKind::Newtype(spanned(u8_type())),
        DeclKind::Config,
        DeclKind::Alias,
        DeclKind::Const,
        DeclKind::Trait,
        DeclKind::Impl,
    ];
    let mut expected = Vec::new();
    for (i, kind) in declared.iter().enumerate() {
        context.declare(&name(&format!("D{i}")), kind).unwrap();
        expected.push((1, i as u8));
        if i == 4 {
            expected.push((30, 1));
        }
    }
    context.import(&name("Imported")).unwrap();
    context.wildcard(at(5)).unwrap();
    expected.extend([(2, 0), (3, 0), (10, 0)]);
    let sheet = context.sheet(&message(vec![])).unwrap();
    assert_eq!(kinds(&sheet), expected);
    assert_eq!(records(&sheet.records)[12].span, at(5));
    accepted(&sheet);
}

#[test]
fn the_context_makes_names_known() {
    let asks = |context: &Context| {
        let operand = WhereOperand::ConstRef("MAX".into());
        let decl = one(
            TypeExpr::Result(boxed(named("T")), boxed(u8_type())),
            vec![],
            Some(cmp(CmpOp::Eq, operand)),
        );
        classes(&context.sheet(&decl).unwrap())
    };
    let mut context = Context::new();
    assert_eq!(asks(&context), [17, 66]);
    let mut wildcard = context.clone();
    wildcard.wildcard(at(0)).unwrap();
    assert_eq!(asks(&wildcard), [66]);
    let mut imported = context.clone();
    imported.import(&name("T")).unwrap();
    imported.import(&name("MAX")).unwrap();
    assert_eq!(asks(&imported), []);
    context.declare(&name("T"), &DeclKind::Message).unwrap();
    context.declare(&name("MAX"), &DeclKind::Const).unwrap();
    assert_eq!(asks(&context), []);
}

#[test]
fn fields_with_all_their_parts() {
    let args = vec![
        AnnotationArg {
            key: None,
            value: AnnotationValue::Int(7),
            span: at(1),
        },
        AnnotationArg {
            key: Some("reason".into()),
            value: AnnotationValue::Str,
            span: at(2),
        },
        AnnotationArg {
            key: None,
            value: AnnotationValue::Bool(true),
            span: at(3),
        },
    ];
    let annotation = Annotation {
        args,
        ..annotation("odd")
    };
    let operand = || spanned(WhereOperand::Value);
    let ranges = WhereExpr::Or(
        boxed(WhereExpr::Range {
            low: operand(),
            high: operand(),
            exclusive_high: true,
        }),
        boxed(WhereExpr::LenRange {
            low: operand(),
            high: operand(),
            exclusive_high: false,
        }),
    );
    let len = WhereExpr::LenCmp {
        op: CmpOp::Ge,
        operand: operand(),
    };
    let condition = WhereExpr::And(
        boxed(WhereExpr::Not(boxed(cmp(CmpOp::Ne, WhereOperand::Value)))),
        boxed(WhereExpr::And(boxed(ranges), boxed(len))),
    );
    let sheet = alone(&one(string(), vec![annotation], Some(condition)));
    let expected = [
        (kind::HEAD, 0),
        (kind::FIELD, 0),
        (kind::ANNOTATION, 0),
        (kind::ARGUMENT, 0),
        (kind::ARGUMENT, 2),
        (kind::ARGUMENT, 3),
        (kind::SEMANTIC, 0),
        (kind::AND, 0),
        (kind::NOT, 0),
        (kind::CMP, 1),
        (kind::OPERAND, 4),
        (kind::AND, 0),
        (kind::OR, 0),
        (kind::RANGE, 1),
        (kind::OPERAND, 4),
        (kind::OPERAND, 4),
        (kind::LEN_RANGE, 0),
        (kind::OPERAND, 4),
        (kind::OPERAND, 4),
        (kind::LEN_CMP, 5),
        (kind::OPERAND, 4),
    ];
    assert_eq!(kinds(&sheet), expected);
    let records = records(&sheet.records);
    assert_eq!(records[1].span, at(10));
    assert_eq!(records[1].ordinal_span, at(20));
    assert_eq!(name_of(&sheet, &records[1]), b"f");
    assert_eq!(name_of(&sheet, &records[2]), b"odd");
    assert_eq!((records[3].value, records[3].name_len), (7, 0));
    assert_eq!(name_of(&sheet, &records[4]), b"reason");
    assert_eq!(records[5].value, 1);
    accepted(&sheet);
}

#[test]
fn operands() {
    let of = |operand| {
        let condition = cmp(CmpOp::Eq, operand);
        let sheet = alone(&one(u8_type(), vec![], Some(condition)));
        accepted(&sheet);
        let last = *records(&sheet.records).last().unwrap();
        (last.sub, last.value, name_of(&sheet, &last))
    };
    assert_eq!(of(WhereOperand::Int(-1)), (0, u64::MAX, vec![]));
    let half = 0.5f64.to_bits();
    assert_eq!(of(WhereOperand::Float(0.5)), (1, half, vec![]));
    assert_eq!(of(WhereOperand::String), (2, 0, vec![]));
    assert_eq!(of(WhereOperand::Bool(true)), (3, 1, vec![]));
    assert_eq!(of(WhereOperand::Bool(false)), (3, 0, vec![]));
    assert_eq!(of(WhereOperand::Value), (4, 0, vec![]));
    let constant = (sub::CONST_REF, 0, b"MAX".to_vec());
    assert_eq!(of(WhereOperand::ConstRef("MAX".into())), constant);
}

#[test]
fn bodies() {
    let body = vec![
        EnumBodyItem::Variant(variant("A", 1)),
        EnumBodyItem::Tombstone(tombstone(2)),
    ];
    let backing = Some(spanned(EnumBacking::U32));
    let sheet = alone(&decl(Body::Enum { backing, body }));
    assert_eq!(kinds(&sheet), [(10, 1), (16, 2), (14, 0), (15, 0)]);
    assert_eq!(records(&sheet.records)[2].ordinal_span, at(61));
    accepted(&sheet);

    let bits = vec![
        FlagsBodyItem::Tombstone(tombstone(2)),
        FlagsBodyItem::Bit(variant("A", 1)),
    ];
    let sheet = alone(&decl(Body::Flags(bits)));
    assert_eq!(kinds(&sheet), [(10, 2), (15, 0), (14, 0)]);
    accepted(&sheet);

    let variant = UnionVariant {
        name: name("V"),
        ordinal: spanned(1),
        fields: vec![
            MessageBodyItem::Field(field("a", 0, u8_type())),
            MessageBodyItem::Tombstone(tombstone(9)),
            MessageBodyItem::Invariant(at(7)),
        ],
    };
    let items = vec![
        UnionBodyItem::Variant(variant),
        UnionBodyItem::Tombstone(tombstone(3)),
    ];
    let sheet = alone(&decl(Body::Union(items)));
    let expected = [
        (10, 3),
        (14, 0),
        (11, 0),
        (30, 1),
        (12, 0),
        (13, 0),
        (15, 0),
    ];
    assert_eq!(kinds(&sheet), expected);
    assert_eq!(classes(&sheet), [68]);
}

#[test]
fn equal_names_share_their_bytes() {
    let mut context = Context::new();
    context.declare(&name("One"), &DeclKind::Message).unwrap();
    let decl = fields(vec![
        field("One", 0, named("One")),
        field("On", 1, named("Two")),
        field("Two", 2, named("One")),
    ]);
    let sheet = context.sheet(&decl).unwrap();
    assert_eq!(sheet.names, b"OneHeadOnTwo");
    for record in records(&sheet.records) {
        let known = [&b"One"[..], b"Head", b"On", b"Two"];
        assert!(known.contains(&&name_of(&sheet, &record)[..]));
    }
    let both = TypeExpr::Qualified("a".into(), "b".into());
    assert_eq!(alone(&one(both, vec![], None)).names, b"Headfa.b");
}

#[test]
fn one_context_serves_many_declarations() {
    let mut context = Context::new();
    context.declare(&name("T"), &DeclKind::Message).unwrap();
    let first = context
        .sheet(&fields(vec![field("a", 0, named("T"))]))
        .unwrap();
    let second = context.sheet(&message(vec![])).unwrap();
    assert_eq!(classes(&first), []);
    assert_eq!(kinds(&second), [(1, 0), (10, 0)]);
    assert_eq!(second.names, b"THead");
}

fn long(len: usize) -> String {
    "x".repeat(len)
}

#[test]
fn names_are_at_most_255_bytes() {
    let of = |len| Context::new().sheet(&fields(vec![field(&long(len), 0, u8_type())]));
    accepted(&of(255).unwrap());
    assert_eq!(fault(of(256)), Fault::NameTooLong { len: 256 });
    assert_eq!(of(256).unwrap_err().span, at(10));
    let qualified = |len: usize| {
        let ty = TypeExpr::Qualified(long(200).into(), long(len).into());
        Context::new().sheet(&one(ty, vec![], None))
    };
    accepted(&qualified(54).unwrap());
    assert_eq!(fault(qualified(55)), Fault::NameTooLong { len: 256 });
}

#[test]
fn names_are_at_most_16384_bytes_together() {
    // 64 names of 255 bytes, the head's of 4, and one more.
    let of = |last: usize| {
        let mut decl: Vec<MessageField> = (0..64)
            .map(|i| field(&format!("{i:0255}"), i, u8_type()))
            .collect();
        decl.push(field(&long(last), 64, u8_type()));
        decl.push(field(&long(last), 65, u8_type()));
        Context::new().sheet(&fields(decl))
    };
    let full = of(60).unwrap();
    assert_eq!(full.names.len(), 16384);
    accepted(&full);
    assert_eq!(fault(of(61)), Fault::NamesTooLong { len: 16385 });
}

#[test]
fn records_are_at_most_1024() {
    let of = |tombstones: usize| {
        let items = vec![MessageBodyItem::Tombstone(tombstone(0)); tombstones];
        Context::new().sheet(&message(items))
    };
    let full = of(RECORD_LIMIT - 1).unwrap();
    assert_eq!(full.records.len(), 32768);
    accepted(&full);
    assert_eq!(fault(of(RECORD_LIMIT)), Fault::TooManyRecords);
}

fn nested(depth: usize) -> TypeExpr {
    (1..depth).fold(u8_type(), |ty, _| TypeExpr::Optional(boxed(ty)))
}

#[test]
fn types_are_at_most_64_deep() {
    let of = |depth| Context::new().sheet(&one(nested(depth), vec![], None));
    accepted(&of(64).unwrap());
    assert_eq!(fault(of(65)), Fault::TooDeep);
    let bits = (1..64).fold(TypeExpr::BitsInline(vec!["a".into()]), |ty, _| {
        TypeExpr::Array(boxed(ty))
    });
    accepted(&alone(&one(bits, vec![], None)));
}

#[test]
fn conditions_are_at_most_64_deep_with_their_operands() {
    let of = |nots: usize| {
        let innermost = cmp(CmpOp::Eq, WhereOperand::Value);
        let condition = (0..nots).fold(innermost, |c, _| WhereExpr::Not(boxed(c)));
        Context::new().sheet(&one(u8_type(), vec![], Some(condition)))
    };
    accepted(&of(62).unwrap());
    assert_eq!(fault(of(63)), Fault::TooDeep);
}

#[test]
fn ordinals_are_at_most_32_bits() {
    let great = u64::from(u32::MAX);
    let of = |ordinal| Context::new().sheet(&fields(vec![field("a", ordinal, u8_type())]));
    assert_eq!(classes(&of(great).unwrap()), [15]);
    let too_great = Fault::OrdinalTooGreat { ordinal: great + 1 };
    assert_eq!(fault(of(great + 1)), too_great);
    let item = |ordinal| MessageBodyItem::Tombstone(tombstone(ordinal));
    accepted(&alone(&message(vec![item(great)])));
    let retired = Context::new().sheet(&message(vec![item(great + 1)]));
    assert_eq!(fault(retired), too_great);
}

#[test]
fn a_key_has_bytes() {
    let of = |key| {
        let annotation = annotation_with("limit", Some(key), AnnotationValue::Int(1));
        Context::new().sheet(&one(string(), vec![annotation], None))
    };
    accepted(&of("k").unwrap());
    assert_eq!(fault(of("")), Fault::EmptyKey);
}

#[test]
fn a_context_that_refuses_stays_as_it_was() {
    let mut context = Context::new();
    context.declare(&name("A"), &DeclKind::Message).unwrap();
    let before = context.sheet(&message(vec![])).unwrap();
    let deep = DeclKind::Newtype(spanned(nested(65)));
    let error = context.declare(&name("B"), &deep).unwrap_err();
    assert_eq!(error.fault, Fault::TooDeep);
    assert!(context.import(&name(&long(256))).is_err());
    assert_eq!(context.sheet(&message(vec![])).unwrap(), before);
    context.declare(&name("B"), &DeclKind::Enum).unwrap();
    assert_eq!(context.sheet(&message(vec![])).unwrap().names, b"ABHead");
}

#[test]
fn a_build_error_says_what_and_where() {
    let error = Context::new()
        .sheet(&fields(vec![field("a", 1 << 32, u8_type())]))
        .unwrap_err();
    assert_eq!(
        error.to_string(),
        "the sheet cannot hold an ordinal of 4294967296, over 4294967295 (at 20, length 7)"
    );
}

#[test]
fn arguments_of_every_value() {
    let values = [
        (AnnotationValue::Int(5), 5),
        (AnnotationValue::Hex(6), 6),
        (AnnotationValue::Str, 0),
        (AnnotationValue::Bool(true), 1),
        (AnnotationValue::Ident, 0),
        (AnnotationValue::UpperIdent, 0),
    ];
    for (sub, (value, number)) in values.into_iter().enumerate() {
        let annotation = annotation_with("x", None, value);
        let sheet = alone(&one(u8_type(), vec![annotation], None));
        let record = records(&sheet.records)[3];
        let expected = (kind::ARGUMENT, sub as u8, number);
        assert_eq!((record.kind, record.sub, record.value), expected);
        assert_eq!(record.span, at(41));
    }
}

#[test]
fn the_low_end_of_a_range_stands_before_the_high_one() {
    let low = || spanned(WhereOperand::Int(1));
    let high = || spanned(WhereOperand::Int(9));
    let range = WhereExpr::Range {
        low: low(),
        high: high(),
        exclusive_high: false,
    };
    let len_range = WhereExpr::LenRange {
        low: low(),
        high: high(),
        exclusive_high: true,
    };
    for condition in [range, len_range] {
        let sheet = alone(&one(string(), vec![], Some(condition)));
        let values: Vec<u64> = records(&sheet.records)[4..]
            .iter()
            .map(|record| record.value)
            .collect();
        assert_eq!(values, [1, 9]);
    }
}
