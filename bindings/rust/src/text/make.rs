//! From a text to its sheet.

use super::scan::{Line, Place, TextError, Token};
use super::{first_place, word};
use crate::context::Sheet;
use crate::format::{sub, Kind, Record, Value, NAME_LIMIT, RECORD};
use crate::names::Names;
use crate::tree::Span;

/// The sheet and the names text that a text says.
pub fn make(text: &[u8]) -> Result<Sheet, TextError> {
    let mut maker = Maker::default();
    for (index, bytes) in text.split(|byte| *byte == b'\n').enumerate() {
        maker.line(Line::new(bytes, index + 1))?;
    }
    maker.finish()
}

/// A name that is said to stand at a place of the names text.
struct Said {
    place: Place,
    offset: usize,
    name: Vec<u8>,
}

#[derive(Default)]
struct Maker {
    records: Vec<u8>,
    names: Names,
    /// Whether the text says what the names text is.
    told: bool,
    said: Vec<Said>,
    rest: Option<Vec<u8>>,
}

impl Maker {
    fn line(&mut self, mut line: Line) -> Result<(), TextError> {
        let Some((place, token)) = line.next()? else {
            return Ok(());
        };
        let Token::Bare(first) = token else {
            return place.error("a line begins with a word");
        };
        if self.rest.is_some() {
            return place.error("nothing can follow `rest`");
        }
        match first {
            word::NAMES => self.names_line(place, &mut line),
            word::REST => self.rest_line(&mut line),
            _ => self.record_line(first, place, line),
        }
    }

    /// A part of the names text.
    fn names_line(&mut self, place: Place, line: &mut Line) -> Result<(), TextError> {
        if !self.records.is_empty() {
            return place.error("`names` stands before the first record");
        }
        let (_, part) = only_quoted(line)?;
        self.told = true;
        self.names.text.extend_from_slice(&part);
        Ok(())
    }

    /// The bytes behind the last record.
    fn rest_line(&mut self, line: &mut Line) -> Result<(), TextError> {
        let (place, rest) = only_quoted(line)?;
        if rest.is_empty() || rest.len() >= RECORD {
            return place.error("`rest` has 1 to 31 bytes");
        }
        self.rest = Some(rest);
        Ok(())
    }

    fn record_line(&mut self, first: &str, place: Place, line: Line) -> Result<(), TextError> {
        let mut reader = Reader::new(line);
        let (kind, number) = if first == word::KIND {
            (None, reader.number(u8::MAX.into())? as u8)
        } else {
            match Kind::with_word(first) {
                Some(kind) => (Some(kind), kind.number),
                None => return place.error(format!("`{first}` is no kind of record")),
            }
        };
        let mut draft = Draft {
            kind,
            ..Draft::default()
        };
        if let Some(kind) = kind.filter(|kind| !kind.subs.is_empty()) {
            draft.sub = Some(reader.sub(kind)?);
        }
        while let Some((place, token)) = reader.line.next()? {
            reader.item(&mut draft, place, token)?;
        }
        let (name_len, name_offset) = self.name(draft.name)?;
        let record = Record {
            kind: number,
            sub: draft.sub.unwrap_or_default(),
            name_len,
            byte3: draft.byte3.unwrap_or_default(),
            name_offset,
            span: draft.span.unwrap_or_default(),
            ordinal_span: draft.ordinal_span.unwrap_or_default(),
            value: draft.value.unwrap_or_default(),
        };
        self.records.extend_from_slice(&record.encode());
        Ok(())
    }

    /// The length and the offset of a name.
    fn name(&mut self, name: Option<NameItem>) -> Result<(u8, u32), TextError> {
        let (place, name, said) = match name {
            None => return Ok((0, 0)),
            Some(NameItem::Part { len, offset }) => return Ok((len, offset)),
            Some(NameItem::Name { place, name, said }) => (place, name, said),
        };
        let Ok(len) = u8::try_from(name.len()) else {
            return place.error(format!("a name has at most {NAME_LIMIT} bytes"));
        };
        if let Some(offset) = said {
            let at = offset as usize;
            self.said.push(Said {
                place,
                offset: at,
                name,
            });
            return Ok((len, offset));
        }
        match u32::try_from(self.offset_of(&name)) {
            Ok(offset) => Ok((len, offset)),
            Err(_) => place.error("the names text is too long"),
        }
    }

    /// Where a name stands whose place is not said.
    fn offset_of(&mut self, name: &[u8]) -> usize {
        if !self.told {
            return self.names.place(name);
        }
        let text = &mut self.names.text;
        first_place(text, name).unwrap_or_else(|| {
            text.extend_from_slice(name);
            text.len() - name.len()
        })
    }

    fn finish(mut self) -> Result<Sheet, TextError> {
        for Said {
            place,
            offset,
            name,
        } in &self.said
        {
            let end = offset.saturating_add(name.len());
            if self.names.text.get(*offset..end) != Some(name) {
                return place.error(format!(
                    "the names text does not have this name at {offset}"
                ));
            }
        }
        self.records.extend(self.rest.unwrap_or_default());
        Ok(Sheet {
            records: self.records,
            names: self.names.text,
        })
    }
}

/// The quoted string that is all of the line's rest.
fn only_quoted(line: &mut Line) -> Result<(Place, Vec<u8>), TextError> {
    let end = line.here();
    let found = match line.next()? {
        Some((place, Token::Quoted(bytes))) => (place, bytes),
        Some((place, _)) => return place.error("a quoted string is wanted"),
        None => return end.error("a quoted string is wanted"),
    };
    match line.next()? {
        None => Ok(found),
        Some((place, _)) => place.error("nothing can follow here"),
    }
}

/// A name as a line has it.
enum NameItem {
    /// `name LEN@OFFSET`
    Part { len: u8, offset: u32 },
    /// `"..."`, and `@OFFSET` if it is said.
    Name {
        place: Place,
        name: Vec<u8>,
        said: Option<u32>,
    },
}

/// The items of a line so far.
#[derive(Default)]
struct Draft {
    kind: Option<&'static Kind>,
    sub: Option<u8>,
    name: Option<NameItem>,
    value: Option<u64>,
    span: Option<Span>,
    ordinal_span: Option<Span>,
    byte3: Option<u8>,
}

/// Puts an item where none is yet.
fn once<T>(slot: &mut Option<T>, item: T, what: &str, place: Place) -> Result<(), TextError> {
    if slot.is_some() {
        return place.error(format!("a second {what}"));
    }
    *slot = Some(item);
    Ok(())
}

/// The number that a token is, in decimal or behind `0x` in hexadecimal.
fn parse_number(token: &str) -> Option<u64> {
    let (digits, radix) = match token.strip_prefix("0x") {
        Some(digits) => (digits, 16),
        None => (token, 10),
    };
    // `from_str_radix` would take a sign.
    let is_digit = |c: char| c.is_digit(radix);
    if !digits.chars().all(is_digit) {
        return None;
    }
    u64::from_str_radix(digits, radix).ok()
}

struct Reader<'a> {
    line: Line<'a>,
}

impl<'a> Reader<'a> {
    fn new(line: Line<'a>) -> Reader<'a> {
        Reader { line }
    }

    /// The next token, which is a word or a number.
    fn bare(&mut self, wanted: &str) -> Result<(Place, &'a str), TextError> {
        let end = self.line.here();
        match self.line.next()? {
            Some((place, Token::Bare(bare))) => Ok((place, bare)),
            Some((place, _)) => place.error(format!("{wanted} is wanted")),
            None => end.error(format!("{wanted} is wanted")),
        }
    }

    /// The next token as a number up to a greatest one.
    fn number(&mut self, greatest: u64) -> Result<u64, TextError> {
        let wanted = format!("a number from 0 to {greatest}");
        let (place, token) = self.bare(&wanted)?;
        match parse_number(token) {
            Some(number) if number <= greatest => Ok(number),
            _ => place.error(format!("{wanted} is wanted")),
        }
    }

    /// The next token as a sub of a kind.
    fn sub(&mut self, kind: &Kind) -> Result<u8, TextError> {
        let wanted = format!("a sub of `{}` ({})", kind.word, kind.subs.join(", "));
        let (place, token) = self.bare(&wanted)?;
        let by_word = kind.subs.iter().position(|word| *word == token);
        let number = by_word.map(|sub| sub as u64).or(parse_number(token));
        match number.map(u8::try_from) {
            Some(Ok(sub)) => Ok(sub),
            _ => place.error(format!("{wanted} is wanted, or a number from 0 to 255")),
        }
    }

    fn span(&mut self) -> Result<Span, TextError> {
        Ok(Span {
            offset: self.number(u32::MAX.into())? as u32,
            len: self.number(u32::MAX.into())? as u32,
        })
    }

    /// Reads an item that begins with that token.
    fn item(&mut self, draft: &mut Draft, place: Place, token: Token) -> Result<(), TextError> {
        let byte = u64::from(u8::MAX);
        let bare = match token {
            Token::Quoted(name) => return self.quoted_name(draft, place, name),
            Token::At(_) => return place.error("`@` stands right behind a quoted string"),
            Token::Bare(bare) => bare,
        };
        match bare {
            word::SUB if draft.kind.is_some_and(|kind| !kind.subs.is_empty()) => {
                place.error("the sub stands right behind the kind")
            }
            word::SUB => {
                let sub = self.number(byte)? as u8;
                once(&mut draft.sub, sub, "sub", place)
            }
            word::NAME => {
                let part = self.name_part()?;
                once(&mut draft.name, part, "name", place)
            }
            word::VALUE => {
                let value = self.number(u64::MAX)?;
                once(&mut draft.value, value, "value", place)
            }
            word::SPAN => {
                let span = self.span()?;
                once(&mut draft.span, span, "span", place)
            }
            word::ORDINAL_SPAN => {
                let span = self.span()?;
                once(&mut draft.ordinal_span, span, "ordinal's span", place)
            }
            word::BYTE3 => {
                let byte3 = self.number(byte)? as u8;
                once(&mut draft.byte3, byte3, "byte 3", place)
            }
            _ => {
                let value = literal(draft, place, bare)?;
                once(&mut draft.value, value, "value", place)
            }
        }
    }

    /// `LEN@OFFSET`
    fn name_part(&mut self) -> Result<NameItem, TextError> {
        let wanted = "a length up to 255, `@` and an offset up to 4294967295";
        let (place, token) = self.bare(wanted)?;
        let numbers = token.split_once('@').and_then(|(len, offset)| {
            let len = u8::try_from(parse_number(len)?).ok()?;
            let offset = u32::try_from(parse_number(offset)?).ok()?;
            Some(NameItem::Part { len, offset })
        });
        match numbers {
            Some(part) => Ok(part),
            None => place.error(format!("{wanted} is wanted")),
        }
    }

    fn quoted_name(
        &mut self,
        draft: &mut Draft,
        place: Place,
        name: Vec<u8>,
    ) -> Result<(), TextError> {
        let sub = draft.sub.unwrap_or_default();
        if !draft.kind.is_some_and(|kind| kind.has_name(sub)) {
            return place.error("this record has no name (`name LEN@OFFSET` sets its bytes)");
        }
        let said = if self.line.is_at() {
            self.said_offset()?
        } else {
            None
        };
        let item = NameItem::Name { place, name, said };
        once(&mut draft.name, item, "name", place)
    }

    /// The offset behind an `@`, which is next.
    fn said_offset(&mut self) -> Result<Option<u32>, TextError> {
        let Some((place, Token::At(token))) = self.line.next()? else {
            return Ok(None);
        };
        match parse_number(token).map(u32::try_from) {
            Some(Ok(offset)) => Ok(Some(offset)),
            _ => place.error("an offset from 0 to 4294967295 is wanted behind `@`"),
        }
    }
}

/// The value that a literal says, as the record's kind and sub read it.
fn literal(draft: &Draft, place: Place, token: &str) -> Result<u64, TextError> {
    let Some(kind) = draft.kind else {
        return place.error(format!("`{token}` is no item of a record"));
    };
    let (value, wanted) = match (kind.value, draft.sub) {
        (Value::Number, _) => (parse_number(token), "a number up to 64 bits"),
        (Value::SubByte, _) => (
            sub_byte(token),
            "`u` or `i` with a number of bits up to 255",
        ),
        (Value::Operand, Some(sub::INT_OPERAND)) => (int(token), "a signed number of 64 bits"),
        (Value::Operand, Some(sub::FLOAT_OPERAND)) => (float(token), "a finite decimal number"),
        (Value::Operand, Some(sub::BOOL_OPERAND)) => {
            let value = token.parse::<bool>().ok().map(u64::from);
            (value, "`true` or `false`")
        }
        (Value::Operand | Value::Unused, _) => {
            return place.error(format!(
                "`{token}` is no item of `{}` (`value N` sets its value's bytes)",
                kind.word
            ))
        }
    };
    match value {
        Some(value) => Ok(value),
        None => place.error(format!(
            "`{token}` is no item of `{}`: {wanted} is its value",
            kind.word
        )),
    }
}

fn sub_byte(token: &str) -> Option<u64> {
    let (sign, digits) = match token.strip_prefix('i') {
        Some(digits) => (256, digits),
        None => (0, token.strip_prefix('u')?),
    };
    let bits = parse_number(digits).filter(|bits| *bits < 256)?;
    Some(sign + bits)
}

fn int(token: &str) -> Option<u64> {
    let digits = token.strip_prefix('-').unwrap_or(token);
    if !digits.chars().all(|c| c.is_ascii_digit()) {
        return None;
    }
    token.parse::<i64>().ok().map(|value| value as u64)
}

fn float(token: &str) -> Option<u64> {
    if !token.starts_with(|c: char| c.is_ascii_digit() || c == '-') {
        return None;
    }
    let value = token.parse::<f64>().ok()?;
    value.is_finite().then(|| value.to_bits())
}
