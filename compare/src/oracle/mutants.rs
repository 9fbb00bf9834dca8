//! Small changes to the functions in scope: each operator, literal, variant and
//! connective, and beyond one token each statement, loop, condition and span.

use std::collections::{BTreeSet, HashMap};
use std::ops::Range;

use crate::tokens::{body, closing, tokens, Kind, Token};

/// The functions of `validate.rs` that the five bodies rest on.
const IN_SCOPE: [&str; 28] = [
    "is_known_type",
    "newtype_inner",
    "check_duplicate_annotations",
    "check_duplicate_annotations_refs",
    "check_deprecated_has_reason",
    "check_message",
    "check_message_body",
    "collect_field_annotations",
    "check_field_type",
    "check_map_key_type",
    "is_invalid_map_key",
    "check_field_annotations",
    "is_varint_valid_type",
    "is_zigzag_valid_type",
    "is_delta_valid_type",
    "is_limit_valid_type",
    "is_valid_geometric_element_type",
    "check_limit_value",
    "check_enum",
    "check_flags",
    "check_union",
    "check_newtype",
    "check_where_clause",
    "validate_where_expr",
    "validate_where_operand",
    "validate_cmp_operator",
    "is_numeric_type",
    "is_collection_type",
];

/// In scope too, and read apart: it has the only names of bits.
const BIT_NAMES: &str = "is_valid_field_name";

/// Words that stand for one another.
const SIBLINGS: [&[&str]; 17] = [
    &["any", "all"],
    &["is_some_and", "is_none_or"],
    &["is_none", "is_some"],
    &["error", "warning"],
    &["MAX", "MIN"],
    &["low", "high"],
    &["left", "right"],
    &["ok", "err"],
    &["key", "value"],
    &["has_varint", "has_zigzag"],
    &["is_numeric_type", "is_collection_type"],
    &[
        "is_varint_valid_type",
        "is_zigzag_valid_type",
        "is_delta_valid_type",
        "is_limit_valid_type",
    ],
    &["ordinal_set", "tombstone_ordinals"],
    &[
        "pre_annotations",
        "post_ordinal_annotations",
        "post_type_annotations",
    ],
    &["const_map", "decl_map"],
    &["newtype_inners", "alias_targets"],
    &["has_wildcard_import", "has_imports"],
];

/// Words with changes of their own.
const WORDS: [(&str, &[&str]); 5] = [
    ("true", &["false"]),
    ("false", &["true"]),
    ("continue", &["break"]),
    (
        "is_ascii_lowercase",
        &["is_ascii_uppercase", "is_ascii_alphabetic", "is_lowercase"],
    ),
    (
        "is_ascii_alphanumeric",
        &["is_ascii_alphabetic", "is_alphanumeric", "is_ascii_graphic"],
    ),
];

/// Operators with white space on both sides.
const OPERATORS: [(&str, &[&str]); 8] = [
    (">", &[">=", "<", "!="]),
    ("<", &["<=", ">", "!="]),
    (">=", &[">", "<="]),
    ("<=", &["<", ">="]),
    ("==", &["!="]),
    ("!=", &["=="]),
    ("&&", &["||"]),
    ("||", &["&&"]),
];

/// Calls whose arguments are texts alone.
const TEXT_CALLS: [&str; 5] = [
    "with_help",
    "with_note",
    "with_suggestion",
    "with_expected_vs_actual",
    "with_valid_options",
];

/// Other spans within reach, by the end of the one in use.
const SPANS: [(&str, &str); 9] = [
    ("ordinal.span", "name.span"),
    ("name.span", "ordinal.span"),
    ("inner_type.span", "name.span"),
    ("ann.span", "arg.span"),
    ("ann.span", "field.ty.span"),
    ("expr.span", "operand.span"),
    ("expr.span", "low.span"),
    ("ty.span", "inner.span"),
    ("inner.span", "ty.span"),
];

#[derive(Debug, Clone, Copy, PartialEq, Eq)]
pub enum File {
    Validate,
    Diagnostic,
}

/// A change: the bytes at `place` become `new`.
#[derive(Debug, Clone)]
pub struct Mutant {
    pub file: File,
    pub place: Range<usize>,
    pub new: String,
    /// Function, token with its number among equal ones in the function, change.
    pub key: [String; 3],
}

/// The changes to both files, and the one change of all texts that must not matter.
pub struct Mutants {
    pub each: Vec<Mutant>,
    pub texts: String,
    pub texts_changed: usize,
}

/// All of them. `Err` if a function in scope is not found exactly once.
pub fn mutants(validate: &str, diagnostic: &str, ast: &str) -> Result<Mutants, String> {
    let mut enums = HashMap::new();
    for source in [validate, diagnostic, ast] {
        read_enums(source, &mut enums)?;
    }
    let all = tokens(validate);
    let mut each = Vec::new();
    let mut text_places = Vec::new();
    let mut classes = BTreeSet::new();
    for name in IN_SCOPE.into_iter().chain([BIT_NAMES]) {
        let function = Function::new(name, validate, &all[body(&all, name)?], &enums);
        function.changes(&mut each);
        text_places.extend(function.texts());
        classes.extend(function.classes());
    }
    each.extend(class_order(diagnostic, &enums, &classes)?);
    Ok(Mutants {
        each,
        texts_changed: text_places.len(),
        texts: with_texts_changed(validate, text_places),
    })
}

fn with_texts_changed(source: &str, mut places: Vec<Range<usize>>) -> String {
    places.sort_by_key(|place| place.start);
    let mut changed = source.to_string();
    for place in places.into_iter().rev() {
        changed.insert(place.end - 1, '~');
    }
    changed
}

// ---------------------------------------------------------------------------
// Enums
// ---------------------------------------------------------------------------

/// What stands after a variant's name.
#[derive(Debug, Clone, Copy, PartialEq, Eq)]
enum Shape {
    Parts(usize),
    Struct,
}

type Enums = HashMap<String, Vec<(String, Shape)>>;

fn read_enums(source: &str, enums: &mut Enums) -> Result<(), String> {
    let all = tokens(source);
    for i in 0..all.len().saturating_sub(2) {
        if all[i].text == "enum" && all[i + 2].text == "{" {
            let end = closing(&all, i + 2)?;
            let variants = read_variants(&all[i + 3..end])?;
            enums.insert(all[i + 1].text.to_string(), variants);
        }
    }
    Ok(())
}

fn read_variants(inside: &[Token<'_>]) -> Result<Vec<(String, Shape)>, String> {
    let mut variants = Vec::new();
    let mut i = 0;
    while i < inside.len() {
        let name = inside[i].text.to_string();
        let (shape, next) = match inside.get(i + 1).map(|token| token.text) {
            Some("(") => {
                let end = closing(inside, i + 1)?;
                let commas = inside[i + 2..end].iter().filter(|t| t.text == ",").count();
                (Shape::Parts(commas + 1), end + 1)
            }
            Some("{") => (Shape::Struct, closing(inside, i + 1)? + 1),
            _ => (Shape::Parts(0), i + 1),
        };
        variants.push((name, shape));
        i = next + 1;
    }
    Ok(variants)
}

/// Neighbours in `ErrorClass` change places, if one of them is reported in scope.
fn class_order(
    diagnostic: &str,
    enums: &Enums,
    reported: &BTreeSet<String>,
) -> Result<Vec<Mutant>, String> {
    let variants = enums.get("ErrorClass").ok_or("no enum ErrorClass")?;
    let all = tokens(diagnostic);
    let start = (2..all.len())
        .find(|&i| all[i - 2].text == "enum" && all[i - 1].text == "ErrorClass")
        .ok_or("no enum ErrorClass")?;
    let place = |i: usize| all[start + 1 + 2 * i].range();
    let mut swaps = Vec::new();
    for (i, pair) in variants.windows(2).enumerate() {
        let (a, b) = (&pair[0].0, &pair[1].0);
        if reported.contains(a) || reported.contains(b) {
            swaps.push(Mutant {
                file: File::Diagnostic,
                place: place(i).start..place(i + 1).end,
                new: format!("{b}, {a}"),
                key: ["ErrorClass", &format!("{a} 1"), &format!("after {b}")].map(String::from),
            });
        }
    }
    Ok(swaps)
}

// ---------------------------------------------------------------------------
// One function
// ---------------------------------------------------------------------------

struct Function<'a> {
    name: &'a str,
    source: &'a str,
    tokens: &'a [Token<'a>],
    enums: &'a Enums,
    /// Whether a token stands inside a text's making.
    in_text: Vec<bool>,
}

impl<'a> Function<'a> {
    fn new(name: &'a str, source: &'a str, tokens: &'a [Token<'a>], enums: &'a Enums) -> Self {
        let mut in_text = vec![false; tokens.len()];
        for i in 1..tokens.len() {
            let format = tokens[i - 1].text == "format" && tokens[i].text == "!";
            if format || TEXT_CALLS.contains(&tokens[i].text) {
                let end = closing(tokens, i + 1).unwrap_or(i + 1);
                in_text[i - 1..=end].fill(true);
            }
        }
        Self {
            name,
            source,
            tokens,
            enums,
            in_text,
        }
    }

    fn text(&self, i: usize) -> &'a str {
        self.tokens.get(i).map_or("", |token| token.text)
    }

    fn prev(&self, i: usize) -> &'a str {
        i.checked_sub(1).map_or("", |i| self.text(i))
    }

    /// The source from one token to another, both included.
    fn between(&self, from: usize, to: usize) -> &'a str {
        &self.source[self.bytes(from, to)]
    }

    fn bytes(&self, from: usize, to: usize) -> Range<usize> {
        self.tokens[from].at..self.tokens[to].range().end
    }

    fn close(&self, open: usize) -> usize {
        closing(self.tokens, open).unwrap_or(open)
    }

    /// A change to the tokens `from..=to`, which are named by `label`.
    fn change(
        &self,
        (from, to): (usize, usize),
        label: &str,
        what: &str,
        new: impl Into<String>,
    ) -> Mutant {
        let len = label.split("::").count() * 2 - 1;
        let same = |i: &usize| {
            let ends = i + len <= self.tokens.len();
            ends && (0..len).map(|k| self.text(i + k)).collect::<String>() == label
        };
        let number = (0..=from).filter(same).count();
        Mutant {
            file: File::Validate,
            place: self.bytes(from, to),
            new: new.into(),
            key: [
                self.name.to_string(),
                format!("{label} {number}"),
                what.to_string(),
            ],
        }
    }

    /// A change of one token.
    fn token(&self, i: usize, new: &str) -> Mutant {
        self.change((i, i), self.text(i), new, new)
    }

    fn changes(&self, found: &mut Vec<Mutant>) {
        for i in 0..self.tokens.len() {
            if !self.in_text[i] {
                self.operators(i, found);
                self.literals(i, found);
                self.words(i, found);
                self.variants(i, found);
                self.condition(i, found);
                self.loops(i, found);
                self.spans(i, found);
                self.statements(i, found);
            }
        }
    }

    // --- one token ---

    fn operators(&self, i: usize, found: &mut Vec<Mutant>) {
        let token = self.tokens[i];
        if token.kind != Kind::Mark {
            return;
        }
        let spaced = self.source[..token.at].ends_with(char::is_whitespace)
            && self.source[token.range().end..].starts_with(char::is_whitespace);
        for (operator, others) in OPERATORS {
            if spaced && token.text == operator {
                found.extend(others.iter().map(|new| self.token(i, new)));
            }
        }
        let of_macro = i > 0
            && self.tokens[i - 1].range().end == token.at
            && self.tokens[i - 1].kind == Kind::Word;
        if token.text == "!" && !of_macro {
            found.push(self.change((i, i), "!", "left out", ""));
        }
    }

    fn literals(&self, i: usize, found: &mut Vec<Mutant>) {
        let token = self.tokens[i];
        match token.kind {
            Kind::Number => {
                let digits = token.text.replace('_', "");
                let digits = digits.trim_end_matches("u64");
                if let Ok(number) = digits.parse::<u64>() {
                    found.push(self.token(i, &(number + 1).to_string()));
                    if number > 0 {
                        found.push(self.token(i, &(number - 1).to_string()));
                    }
                }
            }
            Kind::Char => {
                found.push(self.token(i, "'-'"));
                found.push(self.token(i, "'A'"));
            }
            Kind::Text if self.is_word_literal(i) => {
                let word = token.text.trim_matches('"');
                found.push(self.token(i, &format!("\"{word}x\"")));
                found.push(self.token(i, &format!("\"{}\"", &word[1..])));
            }
            _ => {}
        }
    }

    /// A literal that is compared with, not shown.
    fn is_word_literal(&self, i: usize) -> bool {
        matches!(self.prev(i), "==" | "!=") || matches!(self.text(i + 1), "=>" | "|")
    }

    fn words(&self, i: usize, found: &mut Vec<Mutant>) {
        if self.tokens[i].kind != Kind::Word {
            return;
        }
        let word = self.text(i);
        for (this, others) in WORDS {
            if word == this {
                found.extend(others.iter().map(|new| self.token(i, new)));
            }
        }
        for group in SIBLINGS {
            if group.contains(&word) {
                let others = group.iter().filter(|other| **other != word);
                found.extend(others.map(|new| self.token(i, new)));
            }
        }
    }

    // --- variants ---

    fn variants(&self, i: usize, found: &mut Vec<Mutant>) {
        let Some((last, label)) = self.path(i) else {
            return;
        };
        let (owner, name) = (self.text(i), self.text(i + 2));
        let variants = &self.enums[owner];
        let Some(at) = variants.iter().position(|(v, _)| v == name) else {
            return;
        };
        let shape = variants[at].1;

        // Another variant of the same shape.
        let many = matches!(owner, "ErrorClass" | "PrimitiveType" | "TypeExpr");
        let others = (1..variants.len())
            .map(|k| &variants[(at + k) % variants.len()])
            .filter(|(_, other)| *other == shape);
        for (other, _) in others.take(if many { 1 } else { variants.len() }) {
            found.push(self.change((i + 2, i + 2), &label, other, other));
        }
        if owner == "ErrorClass" {
            return;
        }

        // One of several left out.
        if self.text(last + 1) == "|" {
            found.push(self.change((i, last + 1), &label, "left out", ""));
        } else if self.prev(i) == "|" {
            let mut mutant = self.change((i, last), &label, "left out", "");
            mutant.place.start = self.tokens[i - 1].at;
            found.push(mutant);
        }

        // One more, after the last.
        if self.text(last + 1) != "|" {
            let group = self.group(i);
            for (other, other_shape) in variants {
                let payload = self.payload(i, last, shape, *other_shape);
                if let (false, Some(payload)) = (group.contains(&other.as_str()), payload) {
                    let new = format!("{} | {owner}::{other}{payload}", self.between(i, last));
                    let added = format!("| {owner}::{other}");
                    found.push(self.change((i, last), &label, &added, new));
                }
            }
        }
    }

    /// If an enum's path starts here: its last token with the parts that follow, and
    /// its text.
    fn path(&self, i: usize) -> Option<(usize, String)> {
        if !self.enums.contains_key(self.text(i)) || self.text(i + 1) != "::" {
            return None;
        }
        let label = format!("{}::{}", self.text(i), self.text(i + 2));
        let last = match self.text(i + 3) {
            "(" => self.close(i + 3),
            "{" if self.text(i) == "WhereExpr" => self.close(i + 3),
            _ => i + 2,
        };
        Some((last, label))
    }

    /// The variants that stand with this one, joined by `|`.
    fn group(&self, i: usize) -> Vec<&'a str> {
        let mut group = vec![self.text(i + 2)];
        let mut first = i;
        while self.prev(first) == "|" {
            let before = (0..first)
                .rev()
                .find(|&k| self.path(k).is_some_and(|(last, _)| last + 1 == first - 1));
            let Some(k) = before else { break };
            group.push(self.text(k + 2));
            first = k;
        }
        group
    }

    /// What to write after an added variant, none if it cannot be told.
    fn payload(&self, i: usize, last: usize, shape: Shape, other: Shape) -> Option<String> {
        let own = &self.tokens[i + 3..=last.max(i + 2)];
        let binds = own.iter().any(|token| {
            token.kind == Kind::Word
                && token.text != "_"
                && token.text.starts_with(char::is_lowercase)
        });
        if binds {
            return (shape == other).then(|| self.between(i + 3, last).to_string());
        }
        Some(match other {
            Shape::Parts(0) => String::new(),
            Shape::Parts(_) => "(..)".to_string(),
            Shape::Struct => " { .. }".to_string(),
        })
    }

    /// The classes that are reported.
    fn classes(&self) -> impl Iterator<Item = String> + '_ {
        let named = |&i: &usize| self.text(i) == "ErrorClass" && self.text(i + 1) == "::";
        let all = (0..self.tokens.len()).filter(named);
        all.map(|i| self.text(i + 2).to_string())
    }

    // --- conditions, loops, spans, statements ---

    fn condition(&self, i: usize, found: &mut Vec<Mutant>) {
        if self.text(i) != "if" || self.text(i + 1) == "let" {
            return;
        }
        if let Some(end) = self.ahead(i + 1, &["{", "=>"]) {
            let new = format!("!({})", self.between(i + 1, end - 1));
            let mut mutant = self.change((i, i), "if", "negated", new);
            mutant.place = self.bytes(i + 1, end - 1);
            found.push(mutant);
        }
    }

    fn loops(&self, i: usize, found: &mut Vec<Mutant>) {
        let parts = [".rev()", ".skip(1)", ".take(1)"];
        if self.text(i) == "iter" && self.text(i + 1) == "(" {
            for part in parts {
                found.push(self.change((i, i + 2), "iter", part, format!("iter(){part}")));
            }
        }
        if self.text(i) != "for" {
            return;
        }
        let within = self.ahead(i + 1, &["in"]).map(|at| at + 1);
        let end = within.and_then(|from| self.ahead(from, &["{"]));
        if let (Some(from), Some(end)) = (within, end) {
            for part in parts {
                let new = format!("({}).iter(){part}", self.between(from, end - 1));
                let mut mutant = self.change((i, i), "for", part, new);
                mutant.place = self.bytes(from, end - 1);
                found.push(mutant);
            }
        }
    }

    /// The first token of these texts from here on, outside of brackets.
    fn ahead(&self, from: usize, texts: &[&str]) -> Option<usize> {
        let mut i = from;
        while i < self.tokens.len() {
            match self.text(i) {
                text if texts.contains(&text) => return Some(i),
                "(" | "[" | "{" => i = self.close(i),
                ")" | "]" | "}" => return None,
                _ => {}
            }
            i += 1;
        }
        None
    }

    fn spans(&self, i: usize, found: &mut Vec<Mutant>) {
        let reports = matches!(self.prev(i), "error" | "warning") && self.text(i) == "(";
        let end = self.ahead(i + 1, &[","]).unwrap_or(i);
        if !reports || end <= i + 1 {
            return;
        }
        let used = self.between(i + 1, end - 1);
        let label = self.text(i + 1);
        for (suffix, other) in SPANS {
            if let Some(start) = used.strip_suffix(suffix) {
                if start.is_empty() || start.ends_with('.') {
                    let new = format!("{start}{other}");
                    let what = format!("{used} to {new}");
                    found.push(self.change((i + 1, end - 1), label, &what, new));
                }
            }
        }
    }

    /// The statements of the block that opens here: each left out, and each in the
    /// place of the next.
    fn statements(&self, i: usize, found: &mut Vec<Mutant>) {
        if self.text(i) != "{" || !self.is_block(i) {
            return;
        }
        let statements = self.split(i + 1, self.close(i));
        for (n, &(from, to)) in statements.iter().enumerate() {
            let label = self.text(from);
            if label == "let" {
                continue;
            }
            found.push(self.change((from, to), label, "statement left out", ""));
            let Some(&(next, end)) = statements.get(n + 1) else {
                continue;
            };
            if self.text(next) != "let" {
                let new = format!("{} {}", self.between(next, end), self.between(from, to));
                found.push(self.change((from, end), label, "statement after the next", new));
            }
        }
    }

    /// Whether a brace opens a block of statements: no match's arms, no struct.
    fn is_block(&self, open: usize) -> bool {
        let of_match = (0..open)
            .rev()
            .take_while(|&k| !matches!(self.text(k), ";" | "{" | "}"))
            .any(|k| self.text(k) == "match");
        let of_struct = self.prev(open).starts_with(char::is_uppercase);
        !of_match && !of_struct
    }

    /// The whole statements between two tokens; a last expression is none.
    fn split(&self, from: usize, end: usize) -> Vec<(usize, usize)> {
        let mut statements = Vec::new();
        let (mut start, mut i) = (from, from);
        while i < end {
            match self.text(i) {
                "(" | "[" => i = self.close(i),
                "{" => {
                    i = self.close(i);
                    let compound = matches!(self.text(start), "if" | "for" | "match");
                    if compound && !matches!(self.text(i + 1), "else" | "." | ";") {
                        statements.push((start, i));
                        start = i + 1;
                    }
                }
                ";" => {
                    statements.push((start, i));
                    start = i + 1;
                }
                _ => {}
            }
            i += 1;
        }
        statements
    }

    // --- texts ---

    /// The literals that are shown, not compared with.
    fn texts(&self) -> impl Iterator<Item = Range<usize>> + '_ {
        let shown = |&i: &usize| self.tokens[i].kind == Kind::Text && !self.is_word_literal(i);
        let all = (0..self.tokens.len()).filter(shown);
        all.map(|i| self.tokens[i].range())
    }
}
