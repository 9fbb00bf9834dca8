//! Makes the pieces of good sheets at random: context, items, types, annotations, conditions.
//!
//! What a maker makes is accepted; what the rules say about it is left to chance.

mod annotations;
mod conditions;
mod types;

use crate::draft::Draft;
use crate::format::{
    has_name, has_ordinal, kind, sub, subs, Record, Span, DEPTH_LIMIT, NAMES_LIMIT,
};
use crate::random::Random;

/// Ordinals and sizes next to a limit of the rules.
pub const ORDINALS: [u64; 15] = [
    0,
    1,
    2,
    62,
    63,
    64,
    255,
    256,
    65535,
    65536,
    65537,
    0x0100_0000,
    0x8000_0000,
    0xFFFF_FFFE,
    0xFFFF_FFFF,
];
/// Names that play in a sheet. Some begin alike, some are a part of another.
const NAMES: &str = "A B C AB BC ABC a b ab x Room Roo room MAX MIN limit doc A.B é éA € _ \
    benches1 benches2 benches12 double_periods_on_monday double_periods_on_sunday \
    double_periods_on_sundays";
const HEAD_NAME: &[u8] = b"Head";

/// How spans are given to records.
#[derive(Debug, Clone, Copy)]
enum Spans {
    /// By the record's index, so that every record's differ.
    Counted,
    /// Anything up to 2^32 - 1.
    Random,
    /// 0, 1 and 2^32 - 1.
    Extreme,
}

pub struct Maker {
    pub random: Random,
    pub draft: Draft,
    /// Names in play, some of them declared or imported.
    pub pool: Vec<Vec<u8>>,
    pub declared: Vec<Vec<u8>>,
    imported: Vec<Vec<u8>>,
    constants: Vec<Vec<u8>>,
    /// Whether names may be put anywhere where their bytes already stand.
    pub overlapping: bool,
    /// Percent of the choices that the rules are likely to leave alone.
    clean: usize,
    spans: Spans,
}

impl Maker {
    pub fn new(mut random: Random) -> Maker {
        let mut names: Vec<Vec<u8>> = NAMES
            .split(' ')
            .map(|name| name.as_bytes().to_vec())
            .collect();
        random.shuffle(&mut names);
        names.truncate(random.between(2, 14));
        if random.chance(15) {
            names.push(Vec::new());
        }
        let spans = match random.below(4) {
            0 | 1 => Spans::Counted,
            2 => Spans::Random,
            _ => Spans::Extreme,
        };
        let clean = *random.pick(&[0, 0, 50, 90]);
        Maker {
            overlapping: random.chance(50),
            random,
            draft: Draft::new(),
            pool: names,
            declared: Vec::new(),
            imported: Vec::new(),
            constants: Vec::new(),
            clean,
            spans,
        }
    }

    // -- records -------------------------------------------------------------

    pub fn len(&self) -> usize {
        self.draft.records.len()
    }

    fn span(&mut self, place: u32) -> Span {
        match self.spans {
            Spans::Counted => Span {
                offset: place,
                len: place % 17 + 1,
            },
            Spans::Random => Span {
                offset: self.random.word(),
                len: self.random.word(),
            },
            Spans::Extreme => {
                let ends = [0, 1, u32::MAX - 1, u32::MAX];
                Span {
                    offset: *self.random.pick(&ends),
                    len: *self.random.pick(&ends),
                }
            }
        }
    }

    /// Adds a record without a name.
    pub fn add(&mut self, kind: u8, sub: u8) -> &mut Record {
        let place = 2 * self.len() as u32;
        let span = self.span(place);
        let ordinal_span = self.span(place + 1);
        let record = self.draft.add(kind, sub);
        record.span = span;
        record.ordinal_span = ordinal_span;
        record
    }

    /// Adds a record with a name.
    pub fn named(&mut self, kind: u8, sub: u8, name: &[u8]) -> &mut Record {
        let name_offset = self.place(name);
        let record = self.add(kind, sub);
        record.name_offset = name_offset;
        record.name_len = name.len() as u8;
        record
    }

    /// Where the name stands in the names text, to which it may be added.
    fn place(&mut self, name: &[u8]) -> u32 {
        let text = &self.draft.names;
        if name.is_empty() {
            return self.random.below(text.len() + 1) as u32;
        }
        let is_full = text.len() + name.len() > NAMES_LIMIT;
        let search = self.overlapping && text.len() < 600 || is_full;
        let standing = text.windows(name.len()).position(|part| part == name);
        match standing {
            Some(place) if search => place as u32,
            _ if is_full => 0,
            _ => {
                self.draft.names.extend_from_slice(name);
                (self.draft.names.len() - name.len()) as u32
            }
        }
    }

    fn is_clean(&mut self) -> bool {
        let clean = self.clean;
        self.random.chance(clean)
    }

    fn pool_name(&mut self) -> Vec<u8> {
        self.random.pick(&self.pool).clone()
    }

    fn one_of(&mut self, list: &[Vec<u8>]) -> Vec<u8> {
        if list.is_empty() {
            return self.pool_name();
        }
        self.random.pick(list).clone()
    }

    // -- context -------------------------------------------------------------

    /// Adds up to `most` declarations, some imports and at times a wildcard, in any order.
    pub fn context(&mut self, most: usize) {
        let mut names = self.pool.clone();
        self.random.shuffle(&mut names);
        let count = self.random.between(0, most.min(names.len()));
        let mut planned: Vec<(Vec<u8>, u8)> = Vec::new();
        for name in names.into_iter().take(count) {
            let sub = if self.random.chance(25) {
                sub::NEWTYPE
            } else {
                self.random.below(10) as u8
            };
            planned.push((name, sub));
        }
        self.declared = planned.iter().map(|(name, _)| name.clone()).collect();
        let constants = planned.iter().filter(|(_, sub)| *sub == sub::CONST);
        self.constants = constants.map(|(name, _)| name.clone()).collect();
        let mut order: Vec<usize> = (0..planned.len()).collect();
        self.random.shuffle(&mut order);
        for place in order {
            self.imports(15);
            let (name, sub) = planned[place].clone();
            self.named(kind::DECLARATION, sub, &name);
            if sub == sub::NEWTYPE {
                // A newtype names only what was planned before it: no ring.
                let before: Vec<Vec<u8>> = planned[..place].iter().map(|p| p.0.clone()).collect();
                self.inner_type(&before);
            }
        }
        self.imports(30);
        self.imports(15);
    }

    /// Adds an import or a wildcard with a chance of `percent`.
    fn imports(&mut self, percent: usize) {
        if self.random.chance(percent) {
            let name = self.pool_name();
            self.named(kind::IMPORT, 0, &name);
            self.imported.push(name);
        }
        if self.random.chance(percent / 4) {
            self.add(kind::WILDCARD, 0);
        }
    }

    /// A known newtype's inner type: often one of these names.
    fn inner_type(&mut self, names: &[Vec<u8>]) {
        if !names.is_empty() && self.random.chance(70) {
            let name = self.random.pick(names).clone();
            self.named(kind::NAMED, 0, &name);
        } else if self.random.chance(20) {
            let name = [HEAD_NAME, b"Unknown"][self.random.below(2)];
            self.named(kind::NAMED, 0, name);
        } else {
            self.unnamed_type(3);
        }
    }

    pub fn head(&mut self, sub: u8) {
        let name = if self.random.chance(70) {
            HEAD_NAME.to_vec()
        } else {
            self.pool_name()
        };
        self.named(kind::HEAD, sub, &name);
    }

    // -- items ---------------------------------------------------------------

    /// A field's own record.
    pub fn field_record(&mut self) {
        let name = self.pool_name();
        let ordinal = self.ordinal();
        self.named(kind::FIELD, 0, &name).value = ordinal;
    }

    pub fn ordinal(&mut self) -> u64 {
        if self.is_clean() {
            return self.len() as u64;
        }
        if self.random.chance(60) {
            return self.random.below(6) as u64;
        }
        *self.random.pick(&ORDINALS)
    }

    /// A field with a bit of everything.
    pub fn field(&mut self) {
        self.field_record();
        if self.random.chance(40) {
            self.annotations(3);
        }
        self.ty(3);
        if self.random.chance(30) {
            self.condition(4);
        }
    }

    /// A field, a tombstone or an invariant.
    pub fn field_item(&mut self) {
        let ordinal = self.ordinal();
        match self.random.below(10) {
            0 | 1 => self.add(kind::FIELD_TOMBSTONE, 0).value = ordinal,
            2 if !self.is_clean() => {
                self.add(kind::INVARIANT, 0);
            }
            _ => self.field(),
        }
    }

    /// A variant or bit, or a tombstone.
    pub fn variant_item(&mut self) -> bool {
        let ordinal = self.ordinal();
        let is_variant = self.random.chance(75);
        if is_variant {
            let name = self.pool_name();
            self.named(kind::VARIANT, 0, &name).value = ordinal;
        } else {
            self.add(kind::TOMBSTONE, 0).value = ordinal;
        }
        is_variant
    }

    /// How many items a body gets: few as a rule.
    pub fn item_count(&mut self) -> usize {
        match self.random.below(10) {
            0 => 0,
            1..=7 => self.random.between(1, 5),
            _ => self.random.between(6, 20),
        }
    }

    // -- the end -------------------------------------------------------------

    /// Fills every byte that its record's kind does not use.
    pub fn noise(&mut self) {
        let random = &mut self.random;
        for record in &mut self.draft.records {
            fill_unused(record, random);
        }
    }

    /// A depth for the deepest record that is just accepted, or nearly.
    pub fn great_depth(&mut self) -> usize {
        self.random.between(DEPTH_LIMIT - 3, DEPTH_LIMIT)
    }
}

/// Whether the value of a record of this kind and sub is used.
fn has_value(kind: u8, sub: u8) -> bool {
    match kind {
        kind::ARGUMENT => sub <= 3 && sub != 2,
        kind::OPERAND => matches!(sub, 0 | 1 | 3),
        _ => has_ordinal(kind) || matches!(kind, kind::SUB_BYTE | kind::FIXED_ARRAY),
    }
}

/// Puts random bytes where a record's kind uses none.
pub fn fill_unused(record: &mut Record, random: &mut Random) {
    if subs(record.kind) == Some(0) {
        record.sub = random.byte();
    }
    if !has_name(record.kind, record.sub) {
        record.name_len = random.byte();
        record.name_offset = random.word();
    }
    if !matches!(record.kind, kind::FIELD | kind::VARIANT) {
        record.ordinal_span = Span {
            offset: random.word(),
            len: random.word(),
        };
    }
    if !has_value(record.kind, record.sub) {
        record.value = random.next();
    }
    if record.kind == kind::SUB_BYTE {
        record.value = record.value & 0x1FF | random.next() & !0x1FF;
    }
}
