//! From a sheet to its text.

use super::depth::Depth;
use super::{first_place, word};
use crate::format::{kind, sub, Kind, Record, Value, RECORD};
use crate::names::Names;
use crate::tree::Span;

/// The text of a sheet and its names text.
pub fn show(sheet: &[u8], names: &[u8]) -> String {
    shown(sheet, names, |_| String::new())
}

/// The text with the index of each record as a comment behind it.
pub fn show_indexed(sheet: &[u8], names: &[u8]) -> String {
    shown(sheet, names, |index| format!("  # {index}"))
}

fn shown(sheet: &[u8], names: &[u8], comment: impl Fn(usize) -> String) -> String {
    let pieces = sheet.chunks_exact(RECORD);
    let rest = pieces.remainder();
    let records: Vec<Record> = pieces
        .map(|piece| Record::decode(piece.try_into().expect("a piece has 32 bytes")))
        .collect();
    let shower = Shower {
        names,
        told: !are_laid_out(&records, names),
    };
    let mut text = String::new();
    if shower.told {
        for part in names.chunks(64) {
            text += &format!("{} {}\n", word::NAMES, quoted(part));
        }
    }
    let mut depth = Depth::default();
    for (index, record) in records.iter().enumerate() {
        let indent = "  ".repeat(depth.next(record));
        let items = shower.items(record).join(" ");
        text += &format!("{indent}{items}{}\n", comment(index));
    }
    if !rest.is_empty() {
        text += &format!("{} {}\n", word::REST, quoted(rest));
    }
    text
}

/// The name part of a record, if it ends within the names text.
fn name_part<'a>(names: &'a [u8], record: &Record) -> Option<&'a [u8]> {
    let from = usize::try_from(record.name_offset).ok()?;
    names.get(from..from.checked_add(record.name_len.into())?)
}

/// The name of a record of a kind that has one.
fn name_of<'a>(names: &'a [u8], record: &Record) -> Option<&'a [u8]> {
    let has_name = Kind::of(record.kind).is_some_and(|kind| kind.has_name(record.sub));
    if has_name {
        name_part(names, record)
    } else {
        None
    }
}

/// Whether the names, laid out one after the other and each once, are that names text.
fn are_laid_out(records: &[Record], names: &[u8]) -> bool {
    let mut laid_out = Names::default();
    records.iter().all(|record| match name_of(names, record) {
        Some(name) if !name.is_empty() => laid_out.place(name) == record.name_offset as usize,
        _ => true,
    }) && laid_out.text == names
}

/// A quoted string with those bytes.
fn quoted(bytes: &[u8]) -> String {
    let mut text = String::from("\"");
    for byte in bytes {
        match byte {
            b'"' => text += "\\\"",
            b'\\' => text += "\\\\",
            b'\n' => text += "\\n",
            b'\t' => text += "\\t",
            b' '..=b'~' => text.push(char::from(*byte)),
            _ => text += &format!("\\x{byte:02x}"),
        }
    }
    text.push('"');
    text
}

struct Shower<'a> {
    names: &'a [u8],
    /// Whether the text says what the names text is.
    told: bool,
}

impl Shower<'_> {
    /// The items of a record's line.
    fn items(&self, record: &Record) -> Vec<String> {
        let mut items = Vec::new();
        match Kind::of(record.kind) {
            None => {
                items.push(format!("{} {}", word::KIND, record.kind));
                items.extend(noise(word::SUB, record.sub.into()));
            }
            Some(kind) => {
                items.push(kind.word.to_string());
                items.extend(sub_item(kind, record.sub));
            }
        }
        items.extend(self.name_item(record));
        items.extend(value_item(record));
        items.extend(span_item(word::SPAN, record.span));
        items.extend(span_item(word::ORDINAL_SPAN, record.ordinal_span));
        items.extend(noise(word::BYTE3, record.byte3.into()));
        items
    }

    fn name_item(&self, record: &Record) -> Option<String> {
        let offset = record.name_offset;
        if let Some(name) = name_of(self.names, record) {
            if name.is_empty() && offset == 0 && record.kind == kind::ARGUMENT {
                return None;
            }
            let name_text = quoted(name);
            let placed = self.placed(name, offset as usize);
            return Some(if placed {
                name_text
            } else {
                format!("{name_text}@{offset}")
            });
        }
        if record.name_len == 0 && offset == 0 {
            return None;
        }
        Some(format!("{} {}@{offset}", word::NAME, record.name_len))
    }

    /// Whether a name without a place comes to stand there.
    fn placed(&self, name: &[u8], offset: usize) -> bool {
        if self.told || name.is_empty() {
            first_place(self.names, name) == Some(offset)
        } else {
            true
        }
    }
}

/// The sub by its word, or by its number.
fn sub_item(kind: &Kind, sub: u8) -> Option<String> {
    if kind.subs.is_empty() {
        return noise(word::SUB, sub.into());
    }
    Some(match kind.subs.get(usize::from(sub)) {
        Some(word) => word.to_string(),
        None => sub.to_string(),
    })
}

/// A number that stands for nothing unless it is 0.
fn noise(word: &str, number: u64) -> Option<String> {
    (number != 0).then(|| format!("{word} {number}"))
}

fn span_item(word: &str, span: Span) -> Option<String> {
    let Span { offset, len } = span;
    (span != Span::default()).then(|| format!("{word} {offset} {len}"))
}

/// The value as its kind reads it, or by its number.
fn value_item(record: &Record) -> Option<String> {
    let value = record.value;
    let sort = Kind::of(record.kind).map_or(Value::Unused, |kind| kind.value);
    let read = match sort {
        Value::Unused => None,
        Value::Number => {
            let told = value != 0 || record.kind != kind::ARGUMENT || record.sub < 2;
            return told.then(|| value.to_string());
        }
        Value::SubByte => (value < 512).then(|| {
            let sign = if value < 256 { 'u' } else { 'i' };
            format!("{sign}{}", value % 256)
        }),
        Value::Operand => operand(record.sub, value),
    };
    read.or_else(|| (value != 0).then(|| format!("{} {value:#x}", word::VALUE)))
}

/// The literal of an operand, if its sub has one.
fn operand(sub: u8, value: u64) -> Option<String> {
    match (sub, value) {
        (sub::INT_OPERAND, _) => Some((value as i64).to_string()),
        (sub::FLOAT_OPERAND, _) => {
            let float = f64::from_bits(value);
            float.is_finite().then(|| format!("{float:?}"))
        }
        (sub::BOOL_OPERAND, 0) => Some("false".to_string()),
        (sub::BOOL_OPERAND, 1) => Some("true".to_string()),
        _ => None,
    }
}
