//! The second reading held to document 01 by hand-made sheets: the printed example,
//! M1 to M12, the corners without a number, and each refusal's small example.

use crate::draft::Draft;
use crate::format::{kind, sub, Span};
use crate::reading::{answer, printed, written, Answer};

/// Runs every test, prints the failed ones, and returns how many passed and failed.
pub fn run() -> (usize, usize) {
    let mut report = Report {
        passed: 0,
        failed: 0,
    };
    the_printed_example(&mut report);
    ordinals(&mut report);
    other_bodies(&mut report);
    types(&mut report);
    annotations(&mut report);
    conditions(&mut report);
    context(&mut report);
    refusals(&mut report);
    refusal_order(&mut report);
    the_buffer(&mut report);
    (report.passed, report.failed)
}

struct Report {
    passed: usize,
    failed: usize,
}

impl Report {
    fn check(&mut self, what: &str, seen: &str, wanted: &str) {
        if seen == wanted {
            self.passed += 1;
        } else {
            self.failed += 1;
            println!("failed: {what}\nwanted:\n{wanted}\nseen:\n{seen}");
        }
    }

    /// The violations, as `class E|W offset length`, with the rule and record that they come from.
    fn list(&mut self, what: &str, draft: &Draft, wanted: &[(&str, u16, u16)]) {
        let seen = answer(&draft.sheet(), &draft.names);
        let errors = wanted.iter().filter(|w| w.0.contains('E')).count();
        let mut lines: String = wanted.iter().map(|w| format!("{}\n", w.0)).collect();
        lines += &format!("total {} errors {}\n", wanted.len(), errors);
        self.check(what, &printed(&seen), &lines);
        let sources: Vec<(u16, u16)> = seen.list.iter().map(|v| (v.rule, v.record)).collect();
        let wanted: Vec<(u16, u16)> = wanted.iter().map(|w| (w.1, w.2)).collect();
        self.check(what, &format!("{sources:?}"), &format!("{wanted:?}"));
    }

    fn refused(&mut self, what: &str, sheet: &[u8], names: &[u8], number: u32, index: u32) {
        let refusal = Answer {
            number,
            index,
            total: 0,
            errors: 0,
            list: Vec::new(),
        };
        self.check(
            what,
            &format!("{:?}", answer(sheet, names)),
            &format!("{refusal:?}"),
        );
    }

    fn refused_draft(&mut self, what: &str, draft: &Draft, number: u32, index: u32) {
        self.refused(what, &draft.sheet(), &draft.names, number, index);
    }

    fn accepted(&mut self, what: &str, draft: &Draft) {
        let number = answer(&draft.sheet(), &draft.names).number;
        self.check(what, &number.to_string(), "0");
    }
}

/// A message head; records follow from index 1.
fn message() -> Draft {
    let mut draft = Draft::new();
    draft.head(sub::HEAD_MESSAGE);
    draft
}

/// A message with one field, whose annotations or type follow from index 2.
fn one_field() -> Draft {
    let mut draft = message();
    draft.field(b"f", 0);
    draft
}

fn the_printed_example(report: &mut Report) {
    let mut draft = Draft {
        records: Vec::new(),
        names: b"a".to_vec(),
    };
    draft.add(kind::HEAD, sub::HEAD_MESSAGE).name_len = 0;
    draft.valued(kind::FIELD_TOMBSTONE, 0, 3);
    let field = draft.add(kind::FIELD, 0);
    field.name_len = 1;
    field.value = 3;
    field.span = Span { offset: 10, len: 1 };
    field.ordinal_span = Span { offset: 12, len: 1 };
    draft.u8_type();
    let seen = answer(&draft.sheet(), &draft.names);
    report.check(
        "the printed example",
        &printed(&seen),
        "16 E 12 1\ntotal 1 errors 1\n",
    );
    draft.records.clear();
    report.check(
        "a printed refusal",
        &printed(&answer(&draft.sheet(), b"a")),
        "refused 6 at 0\n",
    );
}

fn fields(ordinals: &[(&[u8], u64)]) -> Draft {
    let mut draft = message();
    for (name, ordinal) in ordinals {
        draft.field(name, *ordinal);
        draft.u8_type();
    }
    draft
}

fn ordinals(report: &mut Report) {
    report.list("M1 passes", &fields(&[(b"a", 65535)]), &[]);
    report.list(
        "M1 too large",
        &fields(&[(b"a", 65536)]),
        &[("15 E 15 2", 2, 1)],
    );
    report.list(
        "M2",
        &fields(&[(b"a", 65536), (b"b", 65536)]),
        &[
            ("15 E 15 2", 2, 1),
            ("15 E 35 2", 2, 3),
            ("14 E 35 2", 4, 3),
        ],
    );
    let mut draft = fields(&[(b"a", 7), (b"b", 7)]);
    draft.valued(kind::FIELD_TOMBSTONE, 0, 7);
    report.list("M3", &draft, &[("16 E 15 2", 3, 1), ("16 E 35 2", 3, 3)]);
    report.list(
        "a name and an ordinal again",
        &fields(&[(b"a", 1), (b"a", 1), (b"a", 1)]),
        &[
            ("14 E 35 2", 4, 3),
            ("13 E 30 1", 5, 3),
            ("14 E 55 2", 4, 5),
            ("13 E 50 1", 5, 5),
        ],
    );
    let mut draft = message();
    draft.add(kind::INVARIANT, 200);
    report.list("invariant", &draft, &[("68 E 10 1", 1, 1)]);
    report.list("an empty message", &message(), &[]);
}

fn other_bodies(report: &mut Report) {
    let body = |head: u8, ordinals: &[u64]| {
        let mut draft = Draft::new();
        draft.head(head);
        ordinals
            .iter()
            .for_each(|&ordinal| draft.variant(b"v", ordinal));
        draft
    };
    let mut draft = body(sub::HEAD_ENUM, &[2]);
    draft.valued(kind::TOMBSTONE, 0, 2);
    report.list("M4", &draft, &[("34 E 15 2", 32, 1)]);
    report.list(
        "enum ordinals",
        &body(sub::HEAD_ENUM, &[65535, 65536, 65536]),
        &[
            ("35 E 25 2", 31, 2),
            ("35 E 35 2", 31, 3),
            ("34 E 35 2", 32, 3),
        ],
    );
    report.list("M5 passes", &body(sub::HEAD_FLAGS, &[63, 63]), &[]);
    report.list(
        "M5 too high",
        &body(sub::HEAD_FLAGS, &[63, 64]),
        &[("39 E 25 2", 34, 2)],
    );
    backing(report);
    let mut draft = body(sub::HEAD_UNION, &[1, 65536]);
    draft.field(b"f", 65536);
    draft.u8_type();
    draft.variant(b"w", 1);
    draft.field(b"f", 65536);
    draft.u8_type();
    draft.valued(kind::TOMBSTONE, 0, 65536);
    report.list(
        "union: lists apart, tombstones late",
        &draft,
        &[
            ("43 E 25 2", 35, 2),
            ("42 E 25 2", 36, 2),
            ("15 E 35 2", 2, 3),
            ("42 E 55 2", 36, 5),
            ("15 E 65 2", 2, 6),
        ],
    );
}

fn backing(report: &mut Report) {
    let body = |backing: u8, ordinal: u64| {
        let mut draft = Draft::new();
        draft.head(sub::HEAD_ENUM);
        draft.add(kind::BACKING, backing);
        draft.variant(b"v", ordinal);
        draft
    };
    report.list("M6 holds", &body(0, 255), &[]);
    report.list("M6 too narrow", &body(0, 256), &[("36 E 10 1", 33, 1)]);
    let most = u64::from(u32::MAX);
    report.list("U16 holds", &body(1, 65535), &[]);
    report.list(
        "U16 too narrow",
        &body(1, most),
        &[("35 E 25 2", 31, 2), ("36 E 10 1", 33, 1)],
    );
    report.list("U32 holds", &body(2, most), &[("35 E 25 2", 31, 2)]);
    report.list("U64 holds", &body(3, most), &[("35 E 25 2", 31, 2)]);
    let mut draft = Draft::new();
    draft.head(sub::HEAD_ENUM);
    draft.add(kind::BACKING, 0);
    draft.valued(kind::TOMBSTONE, 0, 256);
    report.list("a tombstone is no variant", &draft, &[]);
}

fn types(report: &mut Report) {
    let mut draft = one_field();
    draft.add(kind::MAP, 0);
    draft.named(kind::NAMED, 0, b"Undeclared");
    draft.u8_type();
    report.list("M7", &draft, &[]);
    let mut draft = Draft::new();
    draft.named(kind::DECLARATION, sub::CONFIG, b"C");
    draft.head(sub::HEAD_MESSAGE);
    draft.field(b"f", 0);
    draft.add(kind::SET, 0);
    draft.add(kind::OPTIONAL, 0);
    draft.named(kind::NAMED, 0, b"C");
    report.list("M8", &draft, &[("28 E 40 1", 8, 4), ("18 E 50 1", 6, 5)]);
    let mut draft = one_field();
    draft.add(kind::FIXED_ARRAY, 0);
    draft.add(kind::VEC2, 0);
    draft.named(kind::NAMED, 0, b"Undeclared");
    report.list(
        "fixed array of 0, vector of a name",
        &draft,
        &[
            ("51 E 20 1", 9, 2),
            ("29 E 40 1", 10, 4),
            ("17 E 40 1", 7, 4),
        ],
    );
    let mut draft = one_field();
    draft.add(kind::RESULT, 0);
    draft.add(kind::BITS, 0);
    draft.add(kind::BITS, 0);
    for name in [
        b"_A9".as_slice(),
        b"A",
        b"",
        b"a-",
        b"z",
        b"9",
        b"a\xc3\xa9",
    ] {
        draft.named(kind::BIT_NAME, 0, name);
    }
    let bad = ("41 E 40 1", 12, 4);
    report.list(
        "bit names",
        &draft,
        &[("40 E 30 1", 11, 3), bad, bad, bad, bad, bad],
    );
    keys(report);
}

fn keys(report: &mut Report) {
    let with_key = |inner: &[(u8, u8)]| {
        let mut draft = one_field();
        draft.add(kind::SET, 0);
        inner
            .iter()
            .for_each(|&(kind, sub)| draft.add(kind, sub).value = 1);
        draft
    };
    let bad = [("28 E 30 1", 8, 3)];
    for float in [sub::F32, sub::F64, sub::VOID] {
        report.list(
            "bad primitive key",
            &with_key(&[(kind::PRIMITIVE, float)]),
            &bad,
        );
    }
    for good in [sub::BOOL, sub::U8, sub::I64, sub::FIXED32, sub::FIXED64] {
        report.list(
            "good primitive key",
            &with_key(&[(kind::PRIMITIVE, good)]),
            &[],
        );
    }
    for wrapper in [kind::OPTIONAL, kind::ARRAY] {
        report.list(
            "bad wrapped key",
            &with_key(&[(wrapper, 0), (kind::PRIMITIVE, 1)]),
            &bad,
        );
    }
    report.list(
        "good key",
        &with_key(&[(kind::FIXED_ARRAY, 0), (kind::PRIMITIVE, 1)]),
        &[],
    );
    report.list(
        "good key",
        &with_key(&[(kind::VEC2, 0), (kind::PRIMITIVE, sub::F32)]),
        &[],
    );
    for declared in 0..10 {
        let mut draft = Draft::new();
        draft.named(kind::DECLARATION, sub::NEWTYPE, b"A");
        draft.named(kind::NAMED, 0, b"B");
        draft.named(kind::DECLARATION, declared, b"B");
        if declared == sub::NEWTYPE {
            draft.add(kind::PRIMITIVE, sub::F32);
        }
        draft.head(sub::HEAD_MESSAGE);
        draft.field(b"f", 0);
        draft.add(kind::MAP, 0);
        let key = draft.records.len();
        draft.named(kind::NAMED, 0, b"A");
        draft.u8_type();
        let line = format!("28 E {key}0 1");
        let is_bad = matches!(
            declared,
            sub::MESSAGE | sub::UNION | sub::NEWTYPE | sub::CONFIG
        );
        let bad = [(line.as_str(), 8, key as u16)];
        report.list(
            "key behind a newtype",
            &draft,
            if is_bad { &bad } else { &[] },
        );
    }
}

fn annotations(report: &mut Report) {
    let limit = |value: u64, ty: &[(u8, u8)]| {
        let mut draft = one_field();
        draft.named(kind::ANNOTATION, 0, b"limit");
        draft.unkeyed(sub::ARGUMENT_INT, value);
        ty.iter()
            .for_each(|&(kind, sub)| draft.add(kind, sub).value = 1);
        draft
    };
    let string = [(kind::SEMANTIC, sub::STRING)];
    let fixed = [(kind::FIXED_ARRAY, 0), (kind::PRIMITIVE, sub::U8)];
    report.list("M9 passes", &limit(16_777_216, &string), &[]);
    report.list(
        "M9 too long",
        &limit(16_777_217, &string),
        &[("50 E 20 1", 19, 2)],
    );
    report.list("M9 fixed array", &limit(16_777_217, &fixed), &[]);
    report.list(
        "M10",
        &limit(0, &[(kind::PRIMITIVE, sub::U8)]),
        &[("49 E 20 1", 17, 2), ("51 E 20 1", 18, 2)],
    );
    let optional = [(kind::OPTIONAL, 0), (kind::SEMANTIC, sub::STRING)];
    report.list(
        "optional is in the way",
        &limit(1, &optional),
        &[("49 E 20 1", 17, 2)],
    );
    let mut draft = one_field();
    draft.named(kind::ANNOTATION, 0, b"varint");
    draft.named(kind::ANNOTATION, 0, b"zigzag");
    draft.u8_type();
    report.list(
        "M11",
        &draft,
        &[
            ("54 E 30 1", 13, 3),
            ("52 E 20 1", 14, 2),
            ("53 E 30 1", 15, 3),
        ],
    );
    let mut draft = one_field();
    for name in [
        b"doc".as_slice(),
        b"deprecated",
        b"doc",
        b"deprecated",
        b"",
        b"",
        b"delta",
    ] {
        draft.named(kind::ANNOTATION, 0, name);
        if draft.records.len() == 6 {
            draft.named(kind::ARGUMENT, 2, b"reason");
        }
    }
    draft.add(kind::PRIMITIVE, sub::BOOL);
    report.list(
        "deprecated, delta and repeats",
        &draft,
        &[
            ("47 E 30 1", 20, 3),
            ("47 W 50 1", 21, 5),
            ("55 E 90 1", 16, 9),
            ("45 E 50 1", 22, 5),
            ("45 E 80 1", 22, 8),
        ],
    );
}

fn conditions(report: &mut Report) {
    let compare = |operand: u8| {
        let mut draft = one_field();
        draft.add(kind::OPTIONAL, 0);
        draft.add(kind::PRIMITIVE, sub::F32);
        draft.add(kind::CMP, sub::EQ);
        draft.add(kind::OPERAND, operand);
        draft
    };
    report.list(
        "M12 float",
        &compare(sub::OPERAND_FLOAT),
        &[("63 E 50 1", 24, 5)],
    );
    report.list("M12 integer", &compare(sub::OPERAND_INT), &[]);
    let mut draft = one_field();
    draft.add(kind::SET, 0);
    draft.u8_type();
    draft.add(kind::LEN_CMP, sub::EQ);
    draft.add(kind::OPERAND, sub::OPERAND_FLOAT);
    report.list(
        "len on a set",
        &draft,
        &[("65 E 40 1", 30, 4), ("63 E 50 1", 24, 5)],
    );
    let mut draft = one_field();
    draft.add(kind::PRIMITIVE, sub::BOOL);
    draft.add(kind::AND, 0);
    draft.add(kind::CMP, sub::LT);
    draft.add(kind::OPERAND, sub::OPERAND_INT);
    draft.add(kind::OR, 0);
    draft.add(kind::RANGE, 1);
    draft.add(kind::OPERAND, sub::OPERAND_BOOL);
    draft.add(kind::OPERAND, sub::OPERAND_STRING);
    draft.add(kind::NOT, 0);
    draft.add(kind::LEN_RANGE, 0);
    draft.named(kind::OPERAND, sub::OPERAND_CONST, b"MAX");
    draft.add(kind::OPERAND, 4);
    report.list(
        "parts left to right",
        &draft,
        &[
            ("63 E 50 1", 23, 5),
            ("67 E 40 1", 28, 4),
            ("63 E 90 1", 25, 9),
            ("64 E 70 1", 29, 7),
            ("65 E 110 1", 30, 11),
            ("66 E 120 1", 27, 12),
        ],
    );
}

fn context(report: &mut Report) {
    let uses = |kind: u8, sub: u8| {
        let mut draft = Draft::new();
        draft.named(kind, sub, b"N");
        draft.head(sub::HEAD_MESSAGE);
        draft.field(b"f", 0);
        draft.named(kind::NAMED, 0, b"N");
        draft.add(kind::CMP, sub::EQ);
        draft.named(kind::OPERAND, sub::OPERAND_CONST, b"N");
        draft
    };
    let no_constant = [("66 E 50 1", 27, 5)];
    report.list("a constant", &uses(kind::DECLARATION, sub::CONST), &[]);
    report.list("an import", &uses(kind::IMPORT, 0), &[]);
    report.list("a wildcard", &uses(kind::WILDCARD, 9), &no_constant);
    report.list(
        "a message",
        &uses(kind::DECLARATION, sub::MESSAGE),
        &no_constant,
    );
    report.list("an impl", &uses(kind::DECLARATION, 9), &no_constant);
    for (declared, wanted) in [
        (sub::CONFIG, &[("20 E 20 1", 38, 2)][..]),
        (sub::MESSAGE, &[]),
    ] {
        let mut draft = Draft::new();
        draft.named(kind::DECLARATION, declared, b"N");
        draft.head(sub::HEAD_NEWTYPE);
        draft.named(kind::NAMED, 0, b"N");
        report.list("newtype of a name", &draft, wanted);
    }
    let mut draft = Draft::new();
    draft.named(kind::DECLARATION, sub::NEWTYPE, b"N");
    draft.u8_type();
    draft.head(sub::HEAD_NEWTYPE);
    draft.named(kind::NAMED, 0, b"N");
    report.list("newtype of a newtype", &draft, &[("19 E 30 1", 37, 3)]);
}

fn refusals(report: &mut Report) {
    report.refused("1: 31 bytes", &[0; 31], b"", 1, 0);
    report.refused("1: 32800 bytes", &[0; 32800], &[0; 16385], 1, 0);
    report.refused("2: 16385 names", &[0; 32], &[0; 16385], 2, 0);
    let mut draft = message();
    draft.add(9, 0);
    report.refused_draft("3: kind 9", &draft, 3, 1);
    let mut draft = message();
    draft.add(kind::FIELD_TOMBSTONE, 0).byte3 = 1;
    report.refused_draft("3: byte 3", &draft, 3, 1);
    let mut draft = Draft::new();
    draft.head(5);
    report.refused_draft("3: sub", &draft, 3, 0);
    let mut draft = message();
    draft.names = b"a".to_vec();
    draft.records[0].name_len = 2;
    report.refused_draft("4: length 2 in \"a\"", &draft, 4, 0);
    draft.records[0].name_len = 0;
    draft.records[0].name_offset = 2;
    report.refused_draft("4: an empty name beyond", &draft, 4, 0);
    draft.records[0].name_offset = 1;
    report.accepted("an empty name at the end", &draft);
    report.refused_draft("5: 2^32", &fields(&[(b"a", 1 << 32)]), 5, 1);
    report.refused("6: empty sheet", b"", b"", 6, 0);
    report.refused_draft("6: a field without a type", &one_field(), 6, 2);
    depths(report);
    let mut draft = Draft::new();
    draft.named(kind::DECLARATION, sub::MESSAGE, b"A");
    draft.named(kind::DECLARATION, sub::CONST, b"A");
    report.refused_draft("8: two of \"A\"", &draft, 8, 1);
    rings(report);
}

fn depths(report: &mut Report) {
    let optionals = |count: usize| {
        let mut draft = one_field();
        for _ in 0..count {
            draft.add(kind::OPTIONAL, 0);
        }
        draft
    };
    let mut draft = optionals(63);
    draft.u8_type();
    report.accepted("a type of depth 64", &draft);
    report.refused_draft("7: 65 optionals", &optionals(65), 7, 66);
    let mut draft = optionals(64);
    draft.add(kind::OPERAND, 0);
    report.refused_draft("6: a wrong kind at depth 65", &draft, 6, 66);
    let mut draft = optionals(63);
    draft.add(kind::BITS, 0);
    draft.named(kind::BIT_NAME, 0, b"b");
    report.accepted("bit names have no depth", &draft);
    let nots = |count: usize| {
        let mut draft = one_field();
        draft.u8_type();
        for _ in 0..count {
            draft.add(kind::NOT, 0);
        }
        draft.add(kind::CMP, sub::EQ);
        draft.add(kind::OPERAND, 0);
        draft
    };
    report.accepted("a condition of depth 64", &nots(62));
    report.refused_draft("7: an operand of depth 65", &nots(63), 7, 67);
}

fn rings(report: &mut Report) {
    let chain = |links: &[(&[u8], &[u8])]| {
        let mut draft = Draft::new();
        for (name, inner) in links {
            draft.named(kind::DECLARATION, sub::NEWTYPE, name);
            draft.named(kind::NAMED, 0, inner);
        }
        draft.head(sub::HEAD_FLAGS);
        draft
    };
    report.refused_draft(
        "9: A is B, B is A",
        &chain(&[(b"A", b"B"), (b"B", b"A")]),
        9,
        0,
    );
    report.refused_draft("9: A is A", &chain(&[(b"A", b"A")]), 9, 0);
    let leads_in = chain(&[(b"Z", b"Y"), (b"C", b"A"), (b"A", b"B"), (b"B", b"A")]);
    report.refused_draft("9: C leads into a ring", &leads_in, 9, 2);
    report.accepted(
        "a chain to the head",
        &chain(&[(b"A", b"B"), (b"B", b"Head")]),
    );
    let mut draft = Draft::new();
    draft.named(kind::DECLARATION, sub::NEWTYPE, b"A");
    draft.add(kind::OPTIONAL, 0);
    draft.named(kind::NAMED, 0, b"A");
    draft.head(sub::HEAD_FLAGS);
    report.accepted("A is optional A", &draft);
}

fn refusal_order(report: &mut Report) {
    let mut draft = message();
    draft.names = b"a".to_vec();
    draft.records[0].name_len = 0;
    let bad = draft.add(kind::VARIANT, 0);
    bad.name_len = 2;
    bad.value = 1 << 32;
    report.refused_draft("4 before 5 and 6", &draft, 4, 1);
    draft.records[1].byte3 = 1;
    report.refused_draft("3 before 4", &draft, 3, 1);
    draft.records[1] = crate::format::Record::default();
    draft.records[1].kind = kind::TOMBSTONE;
    draft.records[1].value = 1 << 32;
    report.refused_draft("5 before 6", &draft, 5, 1);
    draft.records[1].value = 1;
    report.refused_draft("6 at a tombstone of the wrong kind", &draft, 6, 1);
    let mut draft = Draft::new();
    draft.named(kind::DECLARATION, sub::NEWTYPE, b"A");
    draft.named(kind::NAMED, 0, b"A");
    report.refused_draft("an early end before 9", &draft, 6, 2);
    let mut draft = Draft::new();
    draft.head(sub::HEAD_UNION);
    draft.valued(kind::TOMBSTONE, 0, 1);
    draft.field(b"a", 1);
    report.refused_draft("6: a union's field after a tombstone", &draft, 6, 2);
    let mut draft = message();
    draft.head(sub::HEAD_MESSAGE);
    report.refused_draft("6: a second head", &draft, 6, 1);
}

fn the_buffer(report: &mut Report) {
    let draft = fields(&[(b"a", 65536), (b"b", 65536)]);
    let seen = answer(&draft.sheet(), &draft.names);
    let mut buffer = [0xEE; 25];
    written(&seen, &mut buffer);
    let mut wanted = [0xEE; 25];
    wanted[..12].copy_from_slice(&[15, 0, 0, 0, 15, 0, 0, 0, 2, 0, 0, 0]);
    wanted[12..24].copy_from_slice(&[15, 0, 0, 0, 35, 0, 0, 0, 2, 0, 0, 0]);
    report.check(
        "two of three fit",
        &format!("{buffer:?}"),
        &format!("{wanted:?}"),
    );
    let mut buffer = [0xEE; 24];
    written(&answer(b"", b""), &mut buffer);
    report.check(
        "refused",
        &format!("{buffer:?}"),
        &format!("{:?}", [0xEE; 24]),
    );
}
