//! The check, called through the package on the library that is linked.

mod common;

use common::*;
use vexil_check::format::{kind, Record, LIST_LIMIT};
use vexil_check::tree::*;
use vexil_check::*;

fn record(kind: u8, sub: u8) -> Record {
    Record {
        kind,
        sub,
        ..Record::default()
    }
}

fn refused(sheet: &[u8], names: &[u8]) -> (Refusal, u32) {
    let mut list = [0xa5; 48];
    let answer = check(sheet, names, &mut list);
    assert_eq!(list, [0xa5; 48], "a refusal keeps the list");
    match answer {
        Answer::Refused { refusal, index } => {
            let printed = format!("refused {} at {index}", refusal.number());
            assert_eq!(answer.to_string(), printed);
            (refusal, index)
        }
        Answer::Accepted { .. } => panic!("accepted: {answer}"),
    }
}

/// The printed example, as records.
fn example() -> Vec<u8> {
    let field = Record {
        name_len: 1,
        span: Span { offset: 10, len: 1 },
        ordinal_span: Span { offset: 12, len: 1 },
        value: 3,
        ..record(kind::FIELD, 0)
    };
    let tombstone = Record {
        value: 3,
        ..record(kind::FIELD_TOMBSTONE, 0)
    };
    sheet_of(&[
        record(kind::HEAD, 0),
        tombstone,
        field,
        record(kind::PRIMITIVE, 1),
    ])
}

#[test]
fn the_library_has_the_packages_version() {
    assert_eq!(library_version(), VERSION);
}

#[test]
fn the_printed_example() {
    let report = Report::of(&example(), b"a");
    assert_eq!(report.to_string(), "16 E 12 1\ntotal 1 errors 1\n");
    let violation = Violation {
        class: ErrorClass::OrdinalReusedAfterRemoved,
        severity: Severity::Error,
        span: Span { offset: 12, len: 1 },
    };
    assert_eq!(report.violations, [violation]);
    assert_eq!(
        report.answer,
        Answer::Accepted {
            total: 1,
            errors: 1
        }
    );
}

fn u8_type() -> TypeExpr {
    primitive(PrimitiveType::U8)
}

fn messages(items: Vec<MessageBodyItem>) -> Vec<u16> {
    classes(&alone(&message(items)))
}

#[test]
fn m1_field_ordinals() {
    let of = |ordinal| classes(&alone(&fields(vec![field("a", ordinal, u8_type())])));
    assert_eq!(of(65535), []);
    assert_eq!(of(65536), [15]);
}

#[test]
fn m2_the_same_ordinal_over_the_limit() {
    let two = fields(vec![
        field("a", 65536, u8_type()),
        field("b", 65536, u8_type()),
    ]);
    assert_eq!(classes(&alone(&two)), [15, 15, 14]);
}

#[test]
fn m3_tombstones_count_wherever_they_stand() {
    let items = vec![
        MessageBodyItem::Field(field("a", 7, u8_type())),
        MessageBodyItem::Field(field("b", 7, u8_type())),
        MessageBodyItem::Tombstone(tombstone(7)),
    ];
    assert_eq!(messages(items), [16, 16]);
}

fn enumeration(backing: Option<EnumBacking>, body: Vec<EnumBodyItem>) -> Vec<u16> {
    let backing = backing.map(spanned);
    classes(&alone(&decl(Body::Enum { backing, body })))
}

#[test]
fn m4_enum_tombstones() {
    let body = vec![
        EnumBodyItem::Variant(variant("A", 2)),
        EnumBodyItem::Tombstone(tombstone(2)),
    ];
    assert_eq!(enumeration(None, body), [34]);
}

#[test]
fn m5_bits_of_flags() {
    let of = |bits: &[u64]| {
        let bit = |b: &u64| FlagsBodyItem::Bit(variant("A", *b));
        classes(&alone(&decl(Body::Flags(bits.iter().map(bit).collect()))))
    };
    assert_eq!(of(&[63, 63]), []);
    assert_eq!(of(&[64]), [39]);
}

#[test]
fn m6_backings() {
    let of = |ordinal| {
        let body = vec![EnumBodyItem::Variant(variant("A", ordinal))];
        enumeration(Some(EnumBacking::U8), body)
    };
    assert_eq!(of(255), []);
    assert_eq!(of(256), [36]);
}

#[test]
fn m7_a_key_is_not_checked_as_a_type() {
    let map = TypeExpr::Map(boxed(named("Nowhere")), boxed(u8_type()));
    assert_eq!(classes(&alone(&one(map, vec![], None))), []);
}

#[test]
fn m8_a_set_of_optional_configs() {
    let mut context = Context::new();
    context.declare(&name("C"), &DeclKind::Config).unwrap();
    let set = TypeExpr::Set(boxed(TypeExpr::Optional(boxed(named("C")))));
    let sheet = context.sheet(&one(set, vec![], None)).unwrap();
    assert_eq!(classes(&sheet), [28, 18]);
}

fn limited(ty: TypeExpr, limit: u64) -> Vec<u16> {
    let limit = annotation_with("limit", None, AnnotationValue::Int(limit));
    classes(&alone(&one(ty, vec![limit], None)))
}

#[test]
fn m9_limits() {
    assert_eq!(limited(string(), 16777216), []);
    assert_eq!(limited(string(), 16777217), [50]);
    let array = TypeExpr::FixedArray(boxed(u8_type()), 4);
    assert_eq!(limited(array, 16777217), []);
}

#[test]
fn m10_a_limit_of_zero() {
    assert_eq!(limited(u8_type(), 0), [49, 51]);
}

#[test]
fn m11_varint_and_zigzag() {
    let both = vec![annotation("varint"), annotation("zigzag")];
    assert_eq!(classes(&alone(&one(u8_type(), both, None))), [54, 52, 53]);
}

#[test]
fn m12_operands_of_optional_floats() {
    let of = |operand| {
        let ty = TypeExpr::Optional(boxed(primitive(PrimitiveType::F32)));
        classes(&alone(&one(ty, vec![], Some(cmp(CmpOp::Eq, operand)))))
    };
    assert_eq!(of(WhereOperand::Float(1.0)), [63]);
    assert_eq!(of(WhereOperand::Int(1)), []);
}

#[test]
fn each_refusal() {
    let head = record(kind::HEAD, 0);
    assert_eq!(refused(&[0; 31], b""), (Refusal::SheetLength, 0));
    assert_eq!(refused(&vec![0; 32800], b""), (Refusal::SheetLength, 0));
    assert_eq!(
        refused(&sheet_of(&[head]), &[b'a'; 16385]),
        (Refusal::NamesLength, 0)
    );
    assert_eq!(
        refused(&sheet_of(&[head, record(9, 0)]), b""),
        (Refusal::Unknown, 1)
    );
    let long = Record {
        name_len: 2,
        ..head
    };
    assert_eq!(refused(&sheet_of(&[long]), b"a"), (Refusal::NameRange, 0));
    let great = Record {
        value: 1 << 32,
        ..record(kind::FIELD_TOMBSTONE, 0)
    };
    assert_eq!(
        refused(&sheet_of(&[head, great]), b""),
        (Refusal::OrdinalRange, 1)
    );
    assert_eq!(refused(b"", b""), (Refusal::OutOfOrder, 0));
    assert_eq!(
        refused(&sheet_of(&[head, head]), b""),
        (Refusal::OutOfOrder, 1)
    );
    let mut deep = vec![record(kind::HEAD, 4)];
    deep.extend([record(kind::OPTIONAL, 0); 65]);
    assert_eq!(refused(&sheet_of(&deep), b""), (Refusal::TooDeep, 65));

    let mut twice = Context::new();
    twice.declare(&name("A"), &DeclKind::Message).unwrap();
    twice.declare(&name("A"), &DeclKind::Enum).unwrap();
    let sheet = twice.sheet(&message(vec![])).unwrap();
    let second = (Refusal::SecondDeclaration, 1);
    assert_eq!(refused(&sheet.records, &sheet.names), second);

    let mut ring = Context::new();
    ring.declare(&name("M"), &DeclKind::Message).unwrap();
    for (outer, inner) in [("A", "B"), ("B", "A")] {
        let inner = DeclKind::Newtype(spanned(named(inner)));
        ring.declare(&name(outer), &inner).unwrap();
    }
    let sheet = ring.sheet(&message(vec![])).unwrap();
    let endless = (Refusal::EndlessChain, 1);
    assert_eq!(refused(&sheet.records, &sheet.names), endless);
}

#[test]
fn refusals_by_number() {
    for (i, refusal) in Refusal::ALL.into_iter().enumerate() {
        assert_eq!(refusal.number(), i as u32 + 1);
        assert_eq!(Refusal::from_number(refusal.number()), Some(refusal));
    }
    assert_eq!(Refusal::from_number(0), None);
    assert_eq!(Refusal::from_number(10), None);
    let answer = Answer::Refused {
        refusal: Refusal::NameRange,
        index: 2,
    };
    assert_eq!(answer.to_string(), "refused 4 at 2");
}

#[test]
fn classes_by_number() {
    assert_eq!(ErrorClass::ALL.len(), 33);
    for class in ErrorClass::ALL {
        assert_eq!(ErrorClass::from_number(class.number()), *class);
        assert_eq!(class.to_string(), format!("{class:?}"));
    }
    assert_eq!(ErrorClass::from_number(0), ErrorClass::Other(0));
    assert_eq!(ErrorClass::Other(7).number(), 7);
    assert_eq!(ErrorClass::Other(7).to_string(), "class 7");
}

/// A declaration, with what is known around it, that breaks a rule of each class.
fn breaking(class: ErrorClass) -> (Context, Decl) {
    use ErrorClass as C;
    let mut context = Context::new();
    context.declare(&name("Config"), &DeclKind::Config).unwrap();
    let inner = DeclKind::Newtype(spanned(u8_type()));
    context.declare(&name("Newtype"), &inner).unwrap();
    let ty = |ty| one(ty, vec![], None);
    let annotated = |ty, annotations| one(ty, annotations, None);
    let where_is = |ty, condition| one(ty, vec![], Some(condition));
    let limit = |n| annotation_with("limit", None, AnnotationValue::Hex(n));
    let variants = |ordinals: &[u64]| {
        let variant = |o: &u64| EnumBodyItem::Variant(variant("V", *o));
        ordinals.iter().map(variant).collect::<Vec<_>>()
    };
    let enumeration = |backing, ordinals: &[u64]| {
        decl(Body::Enum {
            backing,
            body: variants(ordinals),
        })
    };
    let union = |ordinals: &[u64]| {
        let variant = |o: &u64| {
            UnionBodyItem::Variant(UnionVariant {
                name: name("V"),
                ordinal: spanned(*o),
                fields: vec![MessageBodyItem::Field(field("a", 0, u8_type()))],
            })
        };
        decl(Body::Union(ordinals.iter().map(variant).collect()))
    };
    let decl = match class {
        C::FieldNameDuplicate => fields(vec![field("a", 0, u8_type()), field("a", 1, u8_type())]),
        C::OrdinalDuplicate => fields(vec![field("a", 0, u8_type()), field("b", 0, u8_type())]),
        C::OrdinalTooLarge => fields(vec![field("a", 65536, u8_type())]),
        C::OrdinalReusedAfterRemoved => message(vec![
            MessageBodyItem::Tombstone(tombstone(1)),
            MessageBodyItem::Field(field("a", 1, u8_type())),
        ]),
        C::UnknownType => ty(named("Nowhere")),
        C::ConfigTypeAsField => ty(named("Config")),
        C::NewtypeOverNewtype => decl(Body::Newtype(spanned(named("Newtype")))),
        C::NewtypeOverConfig => decl(Body::Newtype(spanned(named("Config")))),
        C::InvalidMapKey => ty(TypeExpr::Set(boxed(primitive(PrimitiveType::F32)))),
        C::GeometricInvalidElementType => ty(TypeExpr::Mat4(boxed(u8_type()))),
        C::EnumOrdinalDuplicate => enumeration(None, &[1, 1]),
        C::EnumOrdinalTooLarge => enumeration(None, &[65536]),
        C::EnumBackingTooNarrow => enumeration(Some(spanned(EnumBacking::U8)), &[256]),
        C::FlagsBitTooHigh => decl(Body::Flags(vec![FlagsBodyItem::Bit(variant("B", 64))])),
        C::BitsInlineEmpty => ty(TypeExpr::BitsInline(vec![])),
        C::InvalidBitName => ty(TypeExpr::BitsInline(vec!["Upper".into()])),
        C::UnionOrdinalDuplicate => union(&[1, 1]),
        C::UnionOrdinalTooLarge => union(&[65536]),
        C::DuplicateAnnotation => annotated(u8_type(), vec![annotation("x"), annotation("x")]),
        C::DeprecatedMissingReason => annotated(u8_type(), vec![annotation("deprecated")]),
        C::LimitInvalidTarget => annotated(u8_type(), vec![limit(1)]),
        C::LimitExceedsGlobal => annotated(string(), vec![limit(16777217)]),
        C::LimitZero => annotated(string(), vec![limit(0)]),
        C::VarintInvalidTarget => annotated(u8_type(), vec![annotation("varint")]),
        C::ZigzagInvalidTarget => annotated(u8_type(), vec![annotation("zigzag")]),
        C::VarintZigzagCombined => {
            annotated(u8_type(), vec![annotation("varint"), annotation("zigzag")])
        }
        C::DeltaInvalidTarget => annotated(string(), vec![annotation("delta")]),
        C::WhereClauseTypeMismatch => where_is(u8_type(), cmp(CmpOp::Eq, WhereOperand::String)),
        C::WhereClauseRangeInvalid => where_is(
            string(),
            WhereExpr::Range {
                low: spanned(WhereOperand::Value),
                high: spanned(WhereOperand::Value),
                exclusive_high: true,
            },
        ),
        C::WhereClauseLenOnNonCollection => where_is(
            u8_type(),
            WhereExpr::LenCmp {
                op: CmpOp::Lt,
                operand: spanned(WhereOperand::Int(3)),
            },
        ),
        C::WhereClauseConstRefNotFound => where_is(
            u8_type(),
            cmp(CmpOp::Eq, WhereOperand::ConstRef("MAX".into())),
        ),
        C::WhereClauseOperatorInvalid => where_is(string(), cmp(CmpOp::Lt, WhereOperand::String)),
        C::InvariantUnsupported => message(vec![MessageBodyItem::Invariant(at(90))]),
        _ => panic!("no declaration for {class}"),
    };
    (context, decl)
}

#[test]
fn every_class_is_given_under_its_name() {
    for class in ErrorClass::ALL {
        let (context, decl) = breaking(*class);
        let report = context.sheet(&decl).unwrap().report();
        let found = report.violations.iter().any(|v| v.class == *class);
        assert!(found, "{class}: {report}");
        let unnamed = |v: &Violation| v.class.name().is_none();
        assert!(!report.violations.iter().any(unnamed), "{class}: {report}");
    }
}

#[test]
fn a_warning() {
    let reason = annotation_with("deprecated", Some("reason"), AnnotationValue::Str);
    let report = alone(&one(u8_type(), vec![reason], None)).report();
    assert_eq!(report.violations[0].severity, Severity::Warning);
    assert_eq!(report.to_string(), "47 W 40 6\ntotal 1 errors 0\n");
}

/// Ten fields of too great an ordinal: 10 times class 15, and 9 times 14.
fn nineteen() -> Sheet {
    let letters = "abcdefghij".chars().map(String::from);
    alone(&fields(
        letters.map(|name| field(&name, 70000, u8_type())).collect(),
    ))
}

#[test]
fn lists_of_every_length() {
    let sheet = nineteen();
    let answer = Answer::Accepted {
        total: 19,
        errors: 19,
    };
    let mut whole = vec![0; LIST_LIMIT];
    assert_eq!(sheet.check(&mut whole), answer);
    let all: Vec<Violation> = Violations::new(&whole, 19).collect();
    assert_eq!(all.len(), 19);
    // none, less than one, one, one cut, all but one, all but one cut, all, more
    let most = 19 * Violation::SIZE;
    let lengths = [
        0,
        Violation::SIZE - 1,
        Violation::SIZE,
        2 * Violation::SIZE - 1,
        most - Violation::SIZE,
        most - 1,
        most,
        most + 1,
        most + Violation::SIZE,
        LIST_LIMIT,
    ];
    for len in lengths {
        let mut list = vec![0xa5; len];
        assert_eq!(sheet.check(&mut list), answer);
        let written = (len / Violation::SIZE).min(19);
        let (head, tail) = list.split_at(written * Violation::SIZE);
        assert_eq!(head, &whole[..head.len()], "list of {len}");
        assert!(tail.iter().all(|b| *b == 0xa5), "list of {len}");
        let read = Violations::new(&list, 19);
        assert_eq!(read.len(), written);
        assert!(read.eq(all[..written].iter().copied()), "list of {len}");
    }
}

#[test]
fn violations_stop_at_the_total_and_at_the_list() {
    let list = [0xff; 3 * Violation::SIZE + 4];
    assert_eq!(Violations::new(&list, 0).count(), 0);
    assert_eq!(Violations::new(&list, 2).count(), 2);
    assert_eq!(Violations::new(&list, 3).count(), 3);
    assert_eq!(Violations::new(&list, u32::MAX).count(), 3);
    assert_eq!(Violations::new(&[], 5).count(), 0);
    let first = Violations::new(&list, 1).next().unwrap();
    assert_eq!(first.to_string(), "65535 W 4294967295 4294967295");
}

#[test]
fn the_longest_list_that_a_sheet_can_have_fits() {
    // A field and its type are two records, and three violations at most at the field itself.
    let sheet = alone(&fields(
        (0..511).map(|_| field("a", 70000, named("x"))).collect(),
    ));
    let report = sheet.report();
    let Answer::Accepted { total, .. } = report.answer else {
        panic!("{report}");
    };
    assert_eq!(report.violations.len(), total as usize);
    assert!(report.violations.len() * Violation::SIZE <= LIST_LIMIT);
}
