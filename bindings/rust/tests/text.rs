//! Sheets as text: the round trip, the notation, and where errors are found.

mod common;

use common::generate::Random;
use common::*;
use vexil_check::format::{kind, Kind, Record, KINDS};
use vexil_check::text::{make, show, show_indexed};
use vexil_check::tree::*;
use vexil_check::*;

/// That the text of a sheet gives the sheet, and the same text again.
fn round_trip(sheet: &Sheet) -> String {
    let text = show(&sheet.records, &sheet.names);
    let made = make(text.as_bytes()).unwrap_or_else(|error| panic!("{error}\n{text}"));
    assert_eq!(made, *sheet, "{text}");
    let indexed = show_indexed(&sheet.records, &sheet.names);
    assert_eq!(make(indexed.as_bytes()).as_ref(), Ok(sheet), "{indexed}");
    text
}

fn made(text: &str) -> Sheet {
    make(text.as_bytes()).unwrap_or_else(|error| panic!("{error}\n{text}"))
}

#[test]
fn well_formed_sheets() {
    let mut random = Random::new(1);
    let mut accepted = 0;
    for _ in 0..2000 {
        let sheet = random.well_formed();
        let text = round_trip(&sheet);
        // Names laid out by the builder need no word about where they stand.
        assert!(!text.contains("names \""), "{text}");
        accepted += usize::from(matches!(sheet.report().answer, Answer::Accepted { .. }));
    }
    assert!(accepted > 1000, "{accepted} of 2000 are accepted");
}

#[test]
fn spoilt_noisy_and_any_sheets() {
    let mut random = Random::new(2);
    for _ in 0..2000 {
        round_trip(&random.spoilt());
        round_trip(&random.noisy());
        round_trip(&random.any());
    }
}

#[test]
fn every_kind_and_sub_byte() {
    for kind in 0..=255 {
        let subs = if Kind::of(kind).is_some() { 255 } else { 2 };
        for sub in 0..=subs {
            let record = Record {
                kind,
                sub,
                ..Record::default()
            };
            round_trip(&Sheet {
                records: record.encode().to_vec(),
                names: vec![],
            });
        }
    }
}

#[test]
fn every_byte_of_a_record_is_told() {
    for kind in KINDS.iter().map(|kind| kind.number).chain([0, 99]) {
        for at in 0..32 {
            for byte in [1, 2, 0x7f, 0x80, 0xff] {
                let mut records = Record {
                    kind,
                    ..Record::default()
                }
                .encode()
                .to_vec();
                records[at] = byte;
                let names = b"abc".to_vec();
                round_trip(&Sheet { records, names });
            }
        }
    }
}

#[test]
fn sheets_over_the_limits_and_with_bytes_left_over() {
    let mut random = Random::new(3);
    for (len, names) in [(0, 0), (1, 9), (31, 0), (33, 0), (320, 17000), (40001, 900)] {
        let records = random.bytes(len);
        let names = random.bytes(names);
        round_trip(&Sheet { records, names });
    }
}

const LONG: &str = r#"declaration config "C"
declaration newtype "N" span 1 2
  map
    primitive u8
    named "C"
declaration const "MAX"
import "T"
wildcard
head union "U"
  variant "V" 1 ordinal-span 8 1
    field "a" 3 span 10 1 ordinal-span 12 1
      annotation "limit"
        argument int 0
        argument str "reason"
        argument bool 1
      optional
        array
          bits-inline
            bit-name "x"
            bit-name "\xff\"\\\n"
      and
        cmp eq
          operand int -5
        not
          len-range exclusive
            operand float 0.5
            operand const-ref "MAX"
    field-tombstone 4
    field "b" 4294967295
      fixed-array 7
        sub-byte i5
      cmp ne
        operand bool true
    invariant
  tombstone 2
  variant "W" 9
"#;

#[test]
fn a_long_text_is_shown_as_it_was_written() {
    let sheet = made(LONG);
    assert_eq!(show(&sheet.records, &sheet.names), LONG);
    let Answer::Accepted { .. } = sheet.report().answer else {
        panic!("{}", sheet.report());
    };
    assert_eq!(sheet.names, b"CNMAXTUValimitreasonx\xff\"\\\nbW");
}

#[test]
fn the_printed_example() {
    let text = "\
head message \"\"
  field-tombstone 3
  field \"a\" 3 span 10 1 ordinal-span 12 1
    primitive u8
";
    let sheet = made(text);
    assert_eq!(sheet.names, b"a");
    assert_eq!(sheet.report().to_string(), "16 E 12 1\ntotal 1 errors 1\n");
    assert_eq!(show(&sheet.records, &sheet.names), text);
    let indexed = show_indexed(&sheet.records, &sheet.names);
    assert!(indexed.ends_with("\n    primitive u8  # 3\n"));
}

#[test]
fn spaces_comments_and_line_ends_are_free() {
    let plain = made("head enum \"E\"\n  backing u8\n  variant \"A\" 0x10 span 1 2\n");
    let other =
        made("# an enum\r\n\r\n head\tenum \"E\"#!\r\nbacking 0\nvariant span 1 0x2 16 \"A\"");
    assert_eq!(plain, other);
    assert_eq!(made(""), Sheet::default());
    assert_eq!(made("\n  # nothing\n"), Sheet::default());
    assert_eq!(made("import \"é\"").names, "é".as_bytes());
}

#[test]
fn where_names_stand() {
    let offsets = |text: &str| {
        let sheet = made(text);
        let offsets: Vec<u32> = records(&sheet.records)
            .iter()
            .map(|record| record.name_offset)
            .collect();
        (sheet.names, offsets)
    };
    let each_once = offsets("import \"ab\"\nimport \"b\"\nimport \"ab\"\nimport \"\"");
    assert_eq!(each_once, (b"abb".to_vec(), vec![0, 2, 0, 0]));
    let told = offsets("names \"xa\"\nnames \"b\"\nimport \"ab\"\nimport \"b\"\nimport \"c\"");
    assert_eq!(told, (b"xabc".to_vec(), vec![1, 2, 3]));
    let said = offsets("names \"aa\"\nimport \"a\"@1\nimport \"\"@2\nimport \"a\"");
    assert_eq!(said, (b"aa".to_vec(), vec![1, 2, 0]));
    let part = offsets("import name 7@9");
    assert_eq!(part, (vec![], vec![9]));
}

#[test]
fn values() {
    let value = |text: &str| records(&made(text).records)[0].value;
    assert_eq!(value("operand int -1"), u64::MAX);
    assert_eq!(value("operand int 9223372036854775807"), u64::MAX >> 1);
    assert_eq!(value("operand float -0.0"), 1 << 63);
    assert_eq!(value("operand float 1e3"), 1000f64.to_bits());
    assert_eq!(value("operand bool false"), 0);
    assert_eq!(value("operand bool value 2"), 2);
    assert_eq!(value("sub-byte u255"), 255);
    assert_eq!(value("sub-byte i0"), 256);
    assert_eq!(value("sub-byte value 512"), 512);
    assert_eq!(value("argument hex 0xff"), 255);
    assert_eq!(value("field 18446744073709551615"), u64::MAX);
    assert_eq!(value("primitive u8 value 1"), 1);
    let record = records(&made("kind 9 sub 8 name 7@6 byte3 5 span 4 3 value 2").records)[0];
    let expected = Record {
        kind: 9,
        sub: 8,
        name_len: 7,
        byte3: 5,
        name_offset: 6,
        span: Span { offset: 4, len: 3 },
        ordinal_span: Span::default(),
        value: 2,
    };
    assert_eq!(record, expected);
    assert_eq!(records(&made("primitive 77").records)[0].sub, 77);
    assert_eq!(records(&made("map sub 7").records)[0].sub, 7);
}

#[test]
fn rest_makes_a_length_that_is_no_multiple() {
    let sheet = made("rest \"0123456789012345678901234567890\"");
    assert_eq!(sheet.records.len(), 31);
    assert_eq!(sheet.report().to_string(), "refused 1 at 0\n");
    let sheet = made("head message\nrest \"\\x00\"");
    assert_eq!(sheet.records.len(), 33);
    assert_eq!(records(&sheet.records)[0].kind, kind::HEAD);
}

#[test]
fn errors_name_line_and_column() {
    let cases = [
        ("head", 1, 5, "a sub of `head`"),
        ("head mesage", 1, 6, "a sub of `head`"),
        ("head 256", 1, 6, "a sub of `head`"),
        ("head message\n  feild \"a\" 1", 2, 3, "`feild` is no kind"),
        ("\n\nfield \"a", 3, 7, "does not end"),
        ("field \"a\\q\"", 1, 9, "an escape"),
        ("field \"a\\x1\"", 1, 9, "two hexadecimal digits"),
        ("field \"a\\", 1, 9, "an escape"),
        ("field \"a\"1", 1, 10, "a space"),
        ("field \"é\" x", 1, 11, "no item of `field`"),
        ("field é", 1, 7, "quoted string"),
        ("field 1 2", 1, 9, "a second value"),
        ("field 1 value 2", 1, 9, "a second value"),
        ("field \"a\" \"b\"", 1, 11, "a second name"),
        ("field \"a\" name 1@2", 1, 11, "a second name"),
        ("field span 1 2 span 1 2", 1, 16, "a second span"),
        (
            "field ordinal-span 1 2 ordinal-span 1 2",
            1,
            24,
            "a second ordinal's span",
        ),
        ("field span 1", 1, 13, "a number from 0 to 4294967295"),
        (
            "field span 1 4294967296",
            1,
            14,
            "a number from 0 to 4294967295",
        ),
        ("field span 1 -2", 1, 14, "a number from 0 to 4294967295"),
        ("field span +1 2", 1, 12, "a number from 0 to 4294967295"),
        ("field span 1 \"a\"", 1, 14, "a number from 0 to 4294967295"),
        ("field 18446744073709551616", 1, 7, "up to 64 bits"),
        ("field -1", 1, 7, "up to 64 bits"),
        ("field 0x", 1, 7, "up to 64 bits"),
        ("field byte3 256", 1, 13, "a number from 0 to 255"),
        ("field byte3 1 byte3 1", 1, 15, "a second byte 3"),
        ("field sub 1 sub 2", 1, 13, "a second sub"),
        ("head message sub 1", 1, 14, "right behind the kind"),
        ("kind 256", 1, 6, "a number from 0 to 255"),
        ("kind", 1, 5, "a number from 0 to 255"),
        ("kind 9 \"a\"", 1, 8, "has no name"),
        ("kind 9 4", 1, 8, "no item of a record"),
        ("primitive u8 \"a\"", 1, 14, "has no name"),
        ("primitive u8 3", 1, 14, "`value N`"),
        ("operand int \"a\"", 1, 13, "has no name"),
        ("operand value 1", 1, 15, "`value N`"),
        ("operand int 1.5", 1, 13, "a signed number"),
        ("operand int 9223372036854775808", 1, 13, "a signed number"),
        ("operand int +1", 1, 13, "a signed number"),
        ("operand float inf", 1, 15, "a finite decimal number"),
        ("operand float 1e999", 1, 15, "a finite decimal number"),
        ("operand bool 1", 1, 14, "`true` or `false`"),
        ("sub-byte 5", 1, 10, "`u` or `i`"),
        ("sub-byte u256", 1, 10, "`u` or `i`"),
        ("import name 1", 1, 13, "a length up to 255"),
        ("import name 256@1", 1, 13, "a length up to 255"),
        ("import name", 1, 12, "a length up to 255"),
        ("import \"a\"@", 1, 11, "an offset"),
        ("import \"a\"@4294967296", 1, 11, "an offset"),
        ("import \"a\" @1", 1, 12, "right behind a quoted string"),
        ("import \"a\"@1", 1, 8, "does not have this name at 1"),
        (
            "names \"ab\"\nimport \"a\"@1",
            2,
            8,
            "does not have this name at 1",
        ),
        ("wildcard\nnames \"a\"", 2, 1, "before the first record"),
        ("names", 1, 6, "a quoted string is wanted"),
        ("names a", 1, 7, "a quoted string is wanted"),
        ("names \"a\" \"b\"", 1, 11, "nothing can follow"),
        ("rest \"\"", 1, 6, "1 to 31 bytes"),
        (
            "rest \"01234567890123456789012345678901\"",
            1,
            6,
            "1 to 31 bytes",
        ),
        ("rest \"a\"\nwildcard", 2, 1, "nothing can follow `rest`"),
        ("\"a\"", 1, 1, "begins with a word"),
    ];
    for (text, line, column, message) in cases {
        let error = make(text.as_bytes()).expect_err(text);
        assert_eq!(
            (error.line, error.column),
            (line, column),
            "{text}: {error}"
        );
        assert!(error.message.contains(message), "{text}: {error}");
    }
    let long = format!("import \"{}\"", "x".repeat(256));
    let error = make(long.as_bytes()).unwrap_err();
    assert_eq!(error.to_string(), "1:8: a name has at most 255 bytes");
}

#[test]
fn any_bytes_as_text_are_made_or_refused() {
    let mut random = Random::new(4);
    for _ in 0..2000 {
        let len = random.below(60);
        let _ = make(&random.bytes(len));
        // A text with one byte changed.
        let mut text = LONG.as_bytes().to_vec();
        let at = random.below(text.len());
        text[at] = random.next() as u8;
        if let Ok(sheet) = make(&text) {
            round_trip(&sheet);
        }
    }
}

/// The description of the notation.
const DOCUMENT: &str = include_str!("../../../docs/SHEET_TEXT.md");

#[test]
fn the_texts_of_the_document() {
    let blocks: Vec<&str> = DOCUMENT
        .split("```sheet\n")
        .skip(1)
        .map(|rest| rest.split("```").next().unwrap())
        .collect();
    assert_eq!(blocks.len(), 4);
    for block in &blocks {
        let sheet = made(block);
        assert_eq!(show(&sheet.records, &sheet.names), *block);
    }
    let printed = "16 E 12 1\ntotal 1 errors 1\n";
    assert_eq!(made(blocks[0]).report().to_string(), printed);
    let Answer::Accepted { .. } = made(blocks[1]).report().answer else {
        panic!("{}", made(blocks[1]).report());
    };
}

#[test]
fn the_document_has_every_word() {
    for kind in KINDS {
        let alone = format!("`{}`", kind.word);
        let begins = format!("`{} ", kind.word);
        assert!(
            DOCUMENT.contains(&alone) || DOCUMENT.contains(&begins),
            "{}",
            kind.word
        );
        let subs: Vec<String> = kind.subs.iter().map(|sub| format!("`{sub}`")).collect();
        assert!(DOCUMENT.contains(&subs.join(" ")), "{}", kind.word);
    }
}
