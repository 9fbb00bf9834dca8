//! The tokens of a Rust source, and its functions.

use std::ops::Range;

#[derive(Debug, Clone, Copy, PartialEq, Eq)]
pub enum Kind {
    Word,
    Number,
    Text,
    Char,
    Lifetime,
    Mark,
}

#[derive(Debug, Clone, Copy)]
pub struct Token<'a> {
    pub kind: Kind,
    pub text: &'a str,
    /// The offset of its first byte in the source.
    pub at: usize,
}

impl Token<'_> {
    pub fn range(&self) -> Range<usize> {
        self.at..self.at + self.text.len()
    }
}

/// Marks of more than one character, longest first.
const MARKS: [&str; 24] = [
    "..=", "...", "<<=", ">>=", "::", "->", "=>", "==", "!=", "<=", ">=", "&&", "||", "+=", "-=",
    "*=", "/=", "%=", "^=", "&=", "|=", "<<", ">>", "..",
];

/// The tokens in order, comments and white space left out.
pub fn tokens(source: &str) -> Vec<Token<'_>> {
    let mut found = Vec::new();
    let mut at = 0;
    while let Some(first) = source[at..].chars().next() {
        let rest = &source[at..];
        let (kind, len) = if first.is_whitespace() {
            (None, first.len_utf8())
        } else if rest.starts_with("//") {
            (None, rest.find('\n').unwrap_or(rest.len()))
        } else if rest.starts_with("/*") {
            (None, rest.find("*/").map_or(rest.len(), |end| end + 2))
        } else {
            let (kind, len) = token(rest, first);
            (Some(kind), len)
        };
        if let Some(kind) = kind {
            let text = &rest[..len];
            found.push(Token { kind, text, at });
        }
        at += len;
    }
    found
}

/// The kind and length of the token that the source starts with.
fn token(rest: &str, first: char) -> (Kind, usize) {
    let word = |c: char| c.is_alphanumeric() || c == '_';
    let run = |from: usize| {
        rest[from..]
            .find(|c| !word(c))
            .map_or(rest.len(), |n| from + n)
    };
    if first == '"' {
        return (Kind::Text, quoted(rest, '"'));
    }
    if first == '\'' {
        let mut ahead = rest[1..].chars();
        let (one, two) = (ahead.next(), ahead.next());
        return match one {
            Some(c) if c != '\\' && two != Some('\'') => (Kind::Lifetime, run(1)),
            _ => (Kind::Char, quoted(rest, '\'')),
        };
    }
    if first.is_ascii_digit() {
        return (Kind::Number, run(0));
    }
    if word(first) {
        return (Kind::Word, run(0));
    }
    let mark = MARKS.iter().find(|mark| rest.starts_with(**mark));
    (Kind::Mark, mark.map_or(first.len_utf8(), |mark| mark.len()))
}

/// The length of a literal in quotes.
fn quoted(rest: &str, quote: char) -> usize {
    let mut escaped = false;
    for (at, c) in rest.char_indices().skip(1) {
        match c {
            _ if escaped => escaped = false,
            '\\' => escaped = true,
            _ if c == quote => return at + c.len_utf8(),
            _ => {}
        }
    }
    rest.len()
}

/// The tokens of a function's body with its braces, as a range of `tokens`.
/// `Err` unless there is exactly one function of that name.
pub fn body(tokens: &[Token<'_>], name: &str) -> Result<Range<usize>, String> {
    let heads: Vec<usize> = (1..tokens.len())
        .filter(|&i| tokens[i - 1].text == "fn" && tokens[i].text == name)
        .collect();
    let [head] = heads[..] else {
        return Err(format!("{} functions named {name}", heads.len()));
    };
    let open = (head..tokens.len()).find(|&i| tokens[i].text == "{");
    let open = open.ok_or_else(|| format!("{name} has no body"))?;
    Ok(open..closing(tokens, open)? + 1)
}

/// The place of the bracket that closes the one at `open`.
pub fn closing(tokens: &[Token<'_>], open: usize) -> Result<usize, String> {
    let mut depth = 0usize;
    for (i, token) in tokens.iter().enumerate().skip(open) {
        match (token.kind, token.text) {
            (Kind::Mark, "{" | "(" | "[") => depth += 1,
            (Kind::Mark, "}" | ")" | "]") => depth -= 1,
            _ => {}
        }
        if depth == 0 {
            return Ok(i);
        }
    }
    Err("a bracket is not closed".to_string())
}
