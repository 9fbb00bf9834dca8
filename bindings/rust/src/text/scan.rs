//! The tokens of a line.

use std::error::Error;
use std::fmt;

/// What is wrong with a text, and where: the line and the column, both counted from 1, the column in
/// characters.
#[derive(Debug, Clone, PartialEq, Eq)]
pub struct TextError {
    pub line: usize,
    pub column: usize,
    pub message: String,
}

impl fmt::Display for TextError {
    fn fmt(&self, f: &mut fmt::Formatter) -> fmt::Result {
        write!(f, "{}:{}: {}", self.line, self.column, self.message)
    }
}

impl Error for TextError {}

/// A place in the text.
#[derive(Debug, Clone, Copy, PartialEq, Eq)]
pub(super) struct Place {
    line: usize,
    column: usize,
}

impl Place {
    pub(super) fn error<T>(self, message: impl Into<String>) -> Result<T, TextError> {
        Err(TextError {
            line: self.line,
            column: self.column,
            message: message.into(),
        })
    }
}

#[derive(Debug, Clone, PartialEq, Eq)]
pub(super) enum Token<'a> {
    /// A word or a number.
    Bare(&'a str),
    /// A quoted string.
    Quoted(Vec<u8>),
    /// `@N` right behind a quoted string.
    At(&'a str),
}

/// A line that is read token by token.
pub(super) struct Line<'a> {
    bytes: &'a [u8],
    number: usize,
    at: usize,
}

impl<'a> Line<'a> {
    /// The line with that number, counted from 1.
    pub(super) fn new(bytes: &'a [u8], number: usize) -> Line<'a> {
        Line {
            bytes,
            number,
            at: 0,
        }
    }

    /// The place of a byte of the line.
    fn place(&self, at: usize) -> Place {
        let is_start = |byte: &&u8| !(0x80..0xc0).contains(*byte);
        Place {
            line: self.number,
            column: self.bytes[..at].iter().filter(is_start).count() + 1,
        }
    }

    /// The place of what is read next.
    pub(super) fn here(&self) -> Place {
        self.place(self.at)
    }

    fn peek(&self) -> Option<u8> {
        self.bytes.get(self.at).copied()
    }

    fn skip_spaces(&mut self) {
        while matches!(self.peek(), Some(b' ' | b'\t' | b'\r')) {
            self.at += 1;
        }
    }

    /// The next token with its place, `None` at the line's end or before a comment.
    pub(super) fn next(&mut self) -> Result<Option<(Place, Token<'a>)>, TextError> {
        self.skip_spaces();
        let place = self.here();
        match self.peek() {
            None | Some(b'#') => Ok(None),
            Some(b'"') => Ok(Some((place, Token::Quoted(self.quoted()?)))),
            Some(b'@') => {
                self.at += 1;
                Ok(Some((place, Token::At(self.bare()))))
            }
            Some(_) => {
                let bare = self.bare();
                if bare.is_empty() {
                    return place.error("a character that can only stand in a quoted string");
                }
                Ok(Some((place, Token::Bare(bare))))
            }
        }
    }

    /// Whether an `@` stands right here.
    pub(super) fn is_at(&self) -> bool {
        self.peek() == Some(b'@')
    }

    /// The characters up to a space, a quote or a comment; none if the next one is not plain.
    fn bare(&mut self) -> &'a str {
        let from = self.at;
        while matches!(self.peek(), Some(b'!'..=b'~')) && !matches!(self.peek(), Some(b'"' | b'#'))
        {
            self.at += 1;
        }
        std::str::from_utf8(&self.bytes[from..self.at]).expect("plain characters are ASCII")
    }

    /// The bytes of a quoted string, whose quote is next.
    fn quoted(&mut self) -> Result<Vec<u8>, TextError> {
        let start = self.here();
        self.at += 1;
        let mut bytes = Vec::new();
        loop {
            match self.peek() {
                None => return start.error("a quoted string that does not end on its line"),
                Some(b'"') => break,
                Some(b'\\') => bytes.push(self.escape()?),
                Some(byte) => {
                    bytes.push(byte);
                    self.at += 1;
                }
            }
        }
        self.at += 1;
        match self.peek() {
            None | Some(b' ' | b'\t' | b'\r' | b'#' | b'@') => Ok(bytes),
            Some(_) => self
                .here()
                .error("a space is wanted behind a quoted string"),
        }
    }

    /// The byte that an escape stands for, whose backslash is next.
    fn escape(&mut self) -> Result<u8, TextError> {
        let place = self.here();
        let letter = self.bytes.get(self.at + 1);
        self.at += 2;
        match letter {
            Some(b'"') => Ok(b'"'),
            Some(b'\\') => Ok(b'\\'),
            Some(b'n') => Ok(b'\n'),
            Some(b't') => Ok(b'\t'),
            Some(b'x') => {
                let digits = self.bytes.get(self.at..self.at + 2).unwrap_or_default();
                let digit = |byte: &u8| char::from(*byte).to_digit(16);
                match digits.iter().map(digit).collect::<Option<Vec<u32>>>() {
                    Some(values) if values.len() == 2 => {
                        self.at += 2;
                        Ok((values[0] * 16 + values[1]) as u8)
                    }
                    _ => place.error("`\\x` wants two hexadecimal digits"),
                }
            }
            _ => place.error("an escape is one of `\\\"`, `\\\\`, `\\n`, `\\t`, `\\xHH`"),
        }
    }
}
