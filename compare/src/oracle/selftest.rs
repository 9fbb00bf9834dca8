//! Sheets made by hand with the list that document 01 gives for each: its printed
//! example, M1 to M12 and the corners of the bridge. Both oracles must agree.
//! With an argument, the sheets are recorded in that file too.

use oracle_plain::cases::{write_cases, Case};
use oracle_plain::Found;

// ---------------------------------------------------------------------------
// Making sheets
// ---------------------------------------------------------------------------

/// Record `i` has the span (100 + i, 1) and the ordinal span (500 + i, 2).
#[derive(Clone, Default)]
struct Sheet {
    bytes: Vec<u8>,
    names: Vec<u8>,
}

impl Sheet {
    fn new() -> Self {
        Self::default()
    }

    fn put(mut self, kind: u8, sub: u8, name: &[u8], value: u64) -> Self {
        let index = (self.bytes.len() / 32) as u32;
        self.bytes.extend([kind, sub, name.len() as u8, 0]);
        for number in [self.names.len() as u32, 100 + index, 1, 500 + index, 2] {
            self.bytes.extend(number.to_le_bytes());
        }
        self.bytes.extend(value.to_le_bytes());
        self.names.extend(name);
        self
    }

    fn known(self, sub: u8, name: &str) -> Self {
        self.put(1, sub, name.as_bytes(), 0)
    }

    fn imported(self, name: &str) -> Self {
        self.put(2, 0, name.as_bytes(), 0)
    }

    fn wildcard(self) -> Self {
        self.put(3, 0, b"", 0)
    }

    fn head(self, sub: u8) -> Self {
        self.put(10, sub, b"Head", 0)
    }

    fn field(self, name: &str, ordinal: u64) -> Self {
        self.put(11, 0, name.as_bytes(), ordinal)
    }

    fn variant(self, name: &str, ordinal: u64) -> Self {
        self.put(14, 0, name.as_bytes(), ordinal)
    }

    fn annotation(self, name: &str) -> Self {
        self.put(20, 0, name.as_bytes(), 0)
    }

    fn argument(self, sub: u8, key: &str, value: u64) -> Self {
        self.put(21, sub, key.as_bytes(), value)
    }

    fn primitive(self, sub: u8) -> Self {
        self.put(30, sub, b"", 0)
    }

    fn semantic(self, sub: u8) -> Self {
        self.put(32, sub, b"", 0)
    }

    fn named(self, name: &str) -> Self {
        self.put(33, 0, name.as_bytes(), 0)
    }

    /// A record without name and value.
    fn bare(self, kind: u8, sub: u8) -> Self {
        self.put(kind, sub, b"", 0)
    }

    fn value(self, kind: u8, sub: u8, value: u64) -> Self {
        self.put(kind, sub, b"", value)
    }
}

// Subs by name.
const MESSAGE: u8 = 0;
const ENUM: u8 = 1;
const FLAGS: u8 = 2;
const UNION: u8 = 3;
const NEWTYPE: u8 = 4;
const CONFIG: u8 = 5;
const ALIAS: u8 = 6;
const CONST: u8 = 7;
const IMPL: u8 = 9;
const BOOL: u8 = 0;
const U8: u8 = 1;
const U16: u8 = 2;
const I32: u8 = 7;
const F32: u8 = 9;
const F64: u8 = 10;
const FIXED32: u8 = 11;
const VOID: u8 = 13;
const STRING: u8 = 0;
const BYTES: u8 = 1;
const UUID: u8 = 3;
const INT: u8 = 0;
const FLOAT: u8 = 1;
const TEXT: u8 = 2;
const TRUTH: u8 = 3;
const VALUE: u8 = 4;
const CONST_REF: u8 = 5;
const EQ: u8 = 0;
const LT: u8 = 2;
const GE: u8 = 5;

// ---------------------------------------------------------------------------
// Expecting lists
// ---------------------------------------------------------------------------

/// An error of a class at a record's span.
fn at(class: u16, record: u32) -> Found {
    Found {
        class,
        severity: 0,
        offset: 100 + record,
        len: 1,
    }
}

/// An error of a class at a record's ordinal span.
fn ord(class: u16, record: u32) -> Found {
    Found {
        class,
        severity: 0,
        offset: 500 + record,
        len: 2,
    }
}

/// A warning of a class at a record's span.
fn warning(class: u16, record: u32) -> Found {
    let severity = 1;
    Found {
        severity,
        ..at(class, record)
    }
}

/// Both oracles' answer.
fn answer(sheet: &[u8], names: &[u8]) -> Result<Vec<Found>, String> {
    let plain = oracle_plain::run(sheet, names);
    let lean = oracle_lean::run(sheet, names).map(|list| {
        let same = |f: oracle_lean::Found| Found {
            class: f.class,
            severity: f.severity,
            offset: f.offset,
            len: f.len,
        };
        list.into_iter().map(same).collect()
    });
    assert_eq!(plain, lean, "the two oracles differ");
    plain
}

#[derive(Default)]
struct Tally {
    passed: u32,
    failed: u32,
    cases: Vec<Case>,
}

impl Tally {
    fn gives(&mut self, what: &str, sheet: Sheet, expected: &[Found]) {
        let got = answer(&sheet.bytes, &sheet.names);
        let good = got.as_deref() == Ok(expected);
        self.cases.push(Case {
            sheet: sheet.bytes,
            names: sheet.names,
            expected: expected.to_vec(),
        });
        self.count(good, || {
            format!("{what}: expected {expected:?}, got {got:?}")
        });
    }

    fn refuses(&mut self, what: &str, sheet: &[u8], names: &[u8]) {
        let got = answer(sheet, names);
        self.count(got.is_err(), || {
            format!("{what}: expected an Err, got {got:?}")
        });
    }

    fn count(&mut self, good: bool, why: impl Fn() -> String) {
        if good {
            self.passed += 1;
        } else {
            self.failed += 1;
            println!("{}", why());
        }
    }
}

fn main() {
    let mut tally = Tally::default();
    printed_example(&mut tally);
    table(&mut tally);
    bodies(&mut tally);
    types(&mut tally);
    annotations(&mut tally);
    conditions(&mut tally);
    malformed(&mut tally);
    if let Some(path) = std::env::args_os().nth(1) {
        write_cases(path.as_ref(), tally.cases).expect("the cases can be written");
    }
    println!("{} passed, {} failed", tally.passed, tally.failed);
    std::process::exit(i32::from(tally.failed > 0));
}

// ---------------------------------------------------------------------------
// Document 01's own cases
// ---------------------------------------------------------------------------

fn printed_example(tally: &mut Tally) {
    let mut sheet = Vec::new();
    for (kind, sub, name, spans, value) in [
        (10, 0, 0, [0; 4], 0u64),
        (12, 0, 0, [0; 4], 3),
        (11, 0, 1, [10, 1, 12, 1u32], 3),
        (30, 1, 0, [0; 4], 0),
    ] {
        sheet.extend([kind, sub, name, 0, 0, 0, 0, 0u8]);
        sheet.extend(spans.iter().flat_map(|n| n.to_le_bytes()));
        sheet.extend(value.to_le_bytes());
    }
    let names = b"a".to_vec();
    let found = Found {
        class: 16,
        severity: 0,
        offset: 12,
        len: 1,
    };
    tally.gives(
        "printed example",
        Sheet {
            bytes: sheet,
            names,
        },
        &[found],
    );
}

fn table(tally: &mut Tally) {
    let message = || Sheet::new().head(MESSAGE);
    let one = |ordinal| message().field("a", ordinal).primitive(U8);
    tally.gives("M1 65535", one(65535), &[]);
    tally.gives("M1 65536", one(65536), &[ord(15, 1)]);
    tally.gives(
        "M2",
        one(65536).field("b", 65536).primitive(U8),
        &[ord(15, 1), ord(15, 3), ord(14, 3)],
    );
    tally.gives(
        "M3",
        one(7).field("b", 7).primitive(U8).value(12, 0, 7),
        &[ord(16, 1), ord(16, 3)],
    );

    let en = |sub| Sheet::new().head(ENUM).bare(16, sub);
    tally.gives(
        "M4",
        Sheet::new().head(ENUM).variant("A", 2).value(15, 0, 2),
        &[ord(34, 1)],
    );
    let flags = Sheet::new().head(FLAGS).variant("A", 63).variant("B", 63);
    tally.gives("M5 63 63", flags.clone(), &[]);
    tally.gives("M5 64", flags.variant("C", 64), &[ord(39, 3)]);
    tally.gives("M6 255", en(0).variant("A", 255), &[]);
    tally.gives("M6 256", en(0).variant("A", 256), &[at(36, 1)]);

    let field = || message().field("a", 0);
    tally.gives("M7", field().bare(40, 0).named("No").primitive(U8), &[]);
    tally.gives(
        "M8",
        Sheet::new()
            .known(CONFIG, "C")
            .head(MESSAGE)
            .field("a", 0)
            .bare(39, 0)
            .bare(36, 0)
            .named("C"),
        &[at(28, 4), at(18, 5)],
    );

    let limit = |value| field().annotation("limit").argument(INT, "", value);
    tally.gives("M9 in", limit(16777216).semantic(STRING), &[]);
    tally.gives("M9 over", limit(16777217).semantic(STRING), &[at(50, 2)]);
    tally.gives(
        "M9 fixed array",
        limit(16777217).value(38, 0, 1).primitive(U8),
        &[],
    );
    tally.gives("M10", limit(0).primitive(U8), &[at(49, 2), at(51, 2)]);
    tally.gives(
        "M11",
        field()
            .annotation("varint")
            .annotation("zigzag")
            .primitive(U8),
        &[at(54, 3), at(52, 2), at(53, 3)],
    );

    let optional = || field().bare(36, 0).primitive(F32).bare(53, EQ);
    let half = 0.5f64.to_bits();
    tally.gives("M12 float", optional().value(60, FLOAT, half), &[at(63, 5)]);
    tally.gives("M12 integer", optional().value(60, INT, 1), &[]);
    tally.gives(
        "M12 len of a set",
        field()
            .annotation("limit")
            .argument(INT, "", 1)
            .bare(39, 0)
            .primitive(U8)
            .bare(55, EQ)
            .value(60, INT, 1),
        &[at(65, 6)],
    );
}

// ---------------------------------------------------------------------------
// The bridge, kind by kind
// ---------------------------------------------------------------------------

fn bodies(tally: &mut Tally) {
    tally.gives("empty message", Sheet::new().head(MESSAGE), &[]);
    tally.gives(
        "invariant, names",
        Sheet::new()
            .head(MESSAGE)
            .bare(13, 0)
            .field("a", 1)
            .primitive(U8)
            .field("a", 2)
            .primitive(U8)
            .bare(13, 0),
        &[at(68, 1), at(13, 4), at(68, 6)],
    );
    let long = "a name that is longer than the twenty-three bytes held inline";
    tally.gives(
        "long names",
        Sheet::new()
            .head(MESSAGE)
            .field(long, 1)
            .primitive(U8)
            .field(long, 2)
            .primitive(U8),
        &[at(13, 3)],
    );
    tally.gives(
        "empty names",
        Sheet::new()
            .head(MESSAGE)
            .field("", 1)
            .primitive(U8)
            .field("", 1)
            .primitive(U8),
        &[ord(14, 3), at(13, 3)],
    );
    tally.gives(
        "enum",
        Sheet::new()
            .head(ENUM)
            .bare(16, 1)
            .variant("A", 65536)
            .variant("B", 65536)
            .value(15, 0, 4294967295),
        &[ord(35, 2), ord(35, 3), ord(34, 3), at(36, 1)],
    );
    tally.gives(
        "enum of U32",
        Sheet::new().head(ENUM).bare(16, 2).variant("A", 4294967295),
        &[ord(35, 2)],
    );
    tally.gives(
        "flags with a tombstone",
        Sheet::new().head(FLAGS).value(15, 0, 64).variant("A", 65),
        &[ord(39, 2)],
    );
    tally.gives(
        "union",
        Sheet::new()
            .head(UNION)
            .variant("A", 1)
            .value(12, 0, 5)
            .field("a", 5)
            .primitive(U8)
            .bare(13, 0)
            .variant("B", 1)
            .field("a", 5)
            .named("No")
            .value(15, 0, 70000)
            .variant("C", 70000),
        &[
            ord(16, 3),
            at(68, 5),
            ord(42, 6),
            at(17, 8),
            ord(43, 10),
            ord(42, 10),
        ],
    );
    let newtype = |sub| Sheet::new().known(sub, "A").head(NEWTYPE).named("A");
    tally.gives("newtype over config", newtype(CONFIG), &[at(20, 2)]);
    tally.gives("newtype over impl", newtype(IMPL), &[]);
    tally.gives(
        "newtype over newtype",
        Sheet::new()
            .known(NEWTYPE, "A")
            .primitive(U8)
            .head(NEWTYPE)
            .named("A"),
        &[at(19, 3)],
    );
    tally.gives(
        "newtype over its own name",
        Sheet::new().head(NEWTYPE).named("Head"),
        &[],
    );
}

fn types(tally: &mut Tally) {
    let field = |front: Sheet| front.head(MESSAGE).field("a", 0);
    let fresh = || field(Sheet::new());
    tally.gives("unknown", fresh().named("A"), &[at(17, 2)]);
    tally.gives("the head is not known", fresh().named("Head"), &[at(17, 2)]);
    let imported = field(Sheet::new().imported("A"));
    tally.gives("imported", imported.clone().named("A"), &[]);
    tally.gives("not imported", imported.named("B"), &[at(17, 3)]);
    tally.gives("wildcard", field(Sheet::new().wildcard()).named("B"), &[]);
    tally.gives("impl", field(Sheet::new().known(IMPL, "A")).named("A"), &[]);
    tally.gives(
        "config behind a wildcard",
        field(Sheet::new().wildcard().known(CONFIG, "A")).named("A"),
        &[at(18, 4)],
    );

    let set = |front: Sheet| field(front).bare(39, 0);
    for (sub, bad) in [
        (MESSAGE, true),
        (ENUM, false),
        (FLAGS, false),
        (UNION, true),
        (ALIAS, false),
        (CONST, false),
    ] {
        let expected = if bad { vec![at(28, 4)] } else { vec![] };
        let sheet = set(Sheet::new().known(sub, "A")).named("A");
        tally.gives(&format!("set of a sub {sub}"), sheet, &expected);
    }
    let chain = |sub| {
        let front = Sheet::new().known(NEWTYPE, "A").named("B");
        set(front.known(NEWTYPE, "B").primitive(sub)).named("A")
    };
    tally.gives("newtype of a bad key", chain(VOID), &[at(28, 7)]);
    tally.gives("newtype of a good key", chain(BOOL), &[]);
    tally.gives(
        "map key in a map key",
        fresh()
            .bare(40, 0)
            .bare(40, 0)
            .primitive(F32)
            .named("No")
            .bare(40, 0)
            .primitive(F64)
            .named("No"),
        &[at(28, 3), at(28, 7), at(17, 8)],
    );
    tally.gives(
        "fixed array of 0",
        fresh().bare(38, 0).named("A"),
        &[at(51, 2), at(17, 3)],
    );
    tally.gives(
        "fixed array of 2^63",
        fresh().value(38, 0, 1 << 63).primitive(U8),
        &[],
    );
    for kind in 42..=47 {
        let what = format!("kind {kind}");
        tally.gives(&what, fresh().bare(kind, 0).primitive(F64), &[]);
        tally.gives(&what, fresh().bare(kind, 0).primitive(FIXED32), &[]);
        let bad = fresh().bare(kind, 0).named("A");
        tally.gives(&what, bad, &[at(29, 3), at(17, 3)]);
    }
    tally.gives(
        "result",
        fresh().bare(41, 0).named("A").bare(37, 0).named("B"),
        &[at(17, 3), at(17, 5)],
    );
    tally.gives("no bit names", fresh().bare(48, 0), &[at(40, 2)]);
    tally.gives(
        "bit names",
        fresh()
            .bare(48, 0)
            .put(22, 0, b"_a0Z", 0)
            .put(22, 0, b"", 0)
            .put(22, 0, b"0a", 0)
            .put(22, 0, "\u{e4}".as_bytes(), 0)
            .put(22, 0, b"z", 0),
        &[at(41, 2), at(41, 2), at(41, 2)],
    );
    tally.gives("generic", fresh().put(35, 0, b"G", 0).named("A"), &[]);
    tally.gives("qualified", fresh().put(34, 0, b"n.A", 0), &[]);
    tally.gives("qualified, no dot", fresh().put(34, 0, b"A", 0), &[]);
    tally.gives("sub-byte", fresh().value(31, 0, 0x0103), &[]);
}

fn annotations(tally: &mut Tally) {
    let field = || Sheet::new().head(MESSAGE).field("a", 0);
    tally.gives(
        "delta on a sub-byte",
        field().annotation("delta").value(31, 0, 0x0103),
        &[],
    );
    tally.gives(
        "through optional",
        field().annotation("delta").bare(36, 0).primitive(U8),
        &[at(55, 2)],
    );
    tally.gives(
        "the order of a row",
        field()
            .annotation("delta")
            .annotation("doc")
            .annotation("limit")
            .annotation("zigzag")
            .annotation("doc")
            .annotation("zigzag")
            .annotation("varint")
            .annotation("delta")
            .primitive(BOOL),
        &[
            at(54, 5),
            at(55, 2),
            at(49, 4),
            at(53, 5),
            at(53, 7),
            at(52, 8),
            at(55, 9),
            at(45, 7),
            at(45, 9),
        ],
    );
    tally.gives(
        "good targets",
        field()
            .annotation("varint")
            .primitive(U16)
            .field("b", 1)
            .annotation("zigzag")
            .primitive(I32),
        &[],
    );
    tally.gives(
        "deprecated",
        field()
            .annotation("deprecated")
            .annotation("deprecated")
            .argument(TEXT, "reason", 0)
            .primitive(U8),
        &[at(47, 2), warning(47, 3), at(45, 3)],
    );
    tally.gives(
        "deprecated with another key",
        field()
            .annotation("deprecated")
            .argument(TEXT, "since", 0)
            .argument(TEXT, "", 0)
            .primitive(U8),
        &[at(47, 2)],
    );
    tally.gives(
        "limits by argument",
        field()
            .annotation("limit")
            .argument(1, "", 16777217)
            .argument(0, "max", 0)
            .argument(2, "", 0)
            .argument(3, "", 0)
            .argument(4, "", 0)
            .argument(5, "", 0)
            .argument(0, "", 0)
            .semantic(BYTES),
        &[at(50, 2), at(51, 2)],
    );
    tally.gives(
        "the greatest value on a fixed array",
        field()
            .annotation("limit")
            .argument(1, "", u64::MAX)
            .value(38, 0, 1)
            .primitive(U8),
        &[],
    );
}

fn conditions(tally: &mut Tally) {
    let field = |front: Sheet| front.head(MESSAGE).field("a", 0);
    let fresh = || field(Sheet::new());
    tally.gives(
        "left to right",
        fresh()
            .semantic(UUID)
            .bare(50, 0)
            .bare(51, 0)
            .bare(53, LT)
            .value(60, INT, 1)
            .bare(52, 0)
            .bare(54, 1)
            .value(60, FLOAT, 0)
            .bare(60, VALUE)
            .bare(56, 0)
            .value(60, INT, 1)
            .value(60, TRUTH, 0),
        &[
            at(63, 6),
            at(67, 5),
            at(63, 9),
            at(64, 8),
            at(65, 11),
            at(63, 13),
        ],
    );
    let good: [(u8, u8, u8); 5] = [
        (30, BOOL, TRUTH),
        (32, STRING, TEXT),
        (30, F32, FLOAT),
        (31, 0, INT),
        (30, F64, INT),
    ];
    for (kind, sub, operand) in good {
        let sheet = fresh().value(kind, sub, 3).bare(53, EQ).bare(60, operand);
        tally.gives(&format!("{kind}/{sub} = {operand}"), sheet, &[]);
    }
    tally.gives(
        "optional is not looked through for Bool",
        fresh()
            .bare(36, 0)
            .primitive(BOOL)
            .bare(53, EQ)
            .bare(60, TRUTH),
        &[at(63, 5)],
    );
    tally.gives(
        "two optionals of a string have a length",
        fresh()
            .bare(36, 0)
            .bare(36, 0)
            .semantic(STRING)
            .bare(55, GE)
            .bare(60, INT),
        &[],
    );
    let refers = |front: Sheet| {
        let sheet = field(front).primitive(U8).bare(53, EQ);
        sheet.put(60, CONST_REF, b"K", 0)
    };
    tally.gives("constant", refers(Sheet::new().known(CONST, "K")), &[]);
    tally.gives("imported constant", refers(Sheet::new().imported("K")), &[]);
    tally.gives("no constant", refers(Sheet::new().wildcard()), &[at(66, 5)]);
    tally.gives(
        "another kind is no constant",
        refers(Sheet::new().known(ALIAS, "K")),
        &[at(66, 5)],
    );
}

fn malformed(tally: &mut Tally) {
    let good = Sheet::new()
        .known(NEWTYPE, "A")
        .bare(36, 0)
        .primitive(U8)
        .head(MESSAGE)
        .field("a", 0)
        .annotation("limit")
        .argument(INT, "", 1)
        .bare(40, 0)
        .primitive(U8)
        .bare(48, 0)
        .put(22, 0, b"b", 0)
        .bare(54, 0)
        .value(60, INT, 1)
        .value(60, INT, 2)
        .value(12, 0, 9);
    tally.refuses("empty", b"", b"");
    tally.refuses("31 bytes", &good.bytes[..31], &good.names);
    tally.refuses("too long", &[13; 32 * 1025], b"");
    tally.refuses("names too long", &good.bytes, &[b'a'; 16385]);
    tally.refuses("names cut", &good.bytes, b"A");
    for (what, at, byte) in [
        ("kind 9", 13 * 32, 9),
        ("sub 10 of kind 1", 1, 10),
        ("byte 3", 3, 1),
        ("a name beyond", 4, 255),
        ("an ordinal of 2^32", 14 * 32 + 28, 1),
        ("sub 6 of kind 21", 6 * 32 + 1, 6),
        ("sub 14 of kind 30", 8 * 32 + 1, 14),
        ("sub 2 of kind 54", 11 * 32 + 1, 2),
    ] {
        let mut bytes = good.bytes.clone();
        bytes[at] = byte;
        tally.refuses(what, &bytes, &good.names);
    }
    for records in [0, 1, 2, 3, 5, 6, 7, 8, 9, 12, 13] {
        let cut = &good.bytes[..records * 32];
        tally.refuses(&format!("cut after {records}"), cut, &good.names);
    }
    let names_not_utf8 = Sheet::new().put(10, 0, &[0xff], 0);
    tally.refuses("not UTF-8", &names_not_utf8.bytes, &names_not_utf8.names);
    let twice = Sheet::new()
        .known(ENUM, "A")
        .known(CONST, "A")
        .head(MESSAGE);
    tally.refuses("declared twice", &twice.bytes, &twice.names);

    let nots = |depth| {
        let sheet = Sheet::new().head(MESSAGE).field("a", 0).primitive(U8);
        let sheet = (0..depth).fold(sheet, |sheet, _| sheet.bare(52, 0));
        sheet.bare(53, EQ).value(60, INT, 0)
    };
    tally.gives("62 nots", nots(62), &[]);
    let deep = nots(63);
    tally.refuses("63 nots", &deep.bytes, &deep.names);
    let optionals = |depth| {
        let sheet = Sheet::new().head(NEWTYPE);
        let sheet = (0..depth).fold(sheet, |sheet, _| sheet.bare(36, 0));
        sheet.primitive(U8)
    };
    tally.gives("63 optionals", optionals(63), &[]);
    let deep = optionals(64);
    tally.refuses("64 optionals", &deep.bytes, &deep.names);
    let flood = (0..1000).fold(Sheet::new().head(NEWTYPE), |sheet, _| sheet.bare(36, 0));
    tally.refuses("1000 optionals", &flood.bytes, &flood.names);

    // Every one-byte change of a record's first four bytes: an answer, never a panic.
    for record in 0..good.bytes.len() / 32 {
        for byte in 0..4 {
            for value in 0..=255 {
                let mut bytes = good.bytes.clone();
                bytes[record * 32 + byte] = value;
                let _ = answer(&bytes, &good.names);
            }
        }
    }
}
