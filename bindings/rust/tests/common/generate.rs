//! Random sheets.

use super::*;
use vexil_check::format::KINDS;
use vexil_check::BuildError;

/// Numbers from a seed (xorshift).
pub struct Random(u64);

impl Random {
    pub fn new(seed: u64) -> Random {
        Random(seed.wrapping_mul(0x9e37_79b9_7f4a_7c15) | 1)
    }

    pub fn next(&mut self) -> u64 {
        self.0 ^= self.0 << 13;
        self.0 ^= self.0 >> 7;
        self.0 ^= self.0 << 17;
        self.0.wrapping_mul(0x2545_f491_4f6c_dd1d)
    }

    /// A number below another one.
    pub fn below(&mut self, bound: usize) -> usize {
        (self.next() >> 33) as usize % bound
    }

    pub fn one_in(&mut self, n: usize) -> bool {
        self.below(n) == 0
    }

    pub fn pick<T: Clone>(&mut self, from: &[T]) -> T {
        from[self.below(from.len())].clone()
    }

    pub fn bytes(&mut self, len: usize) -> Vec<u8> {
        (0..len).map(|_| self.next() as u8).collect()
    }

    /// Small numbers, limits and any.
    pub fn number(&mut self) -> u64 {
        match self.below(4) {
            0 => self.below(4) as u64,
            1 => self.pick(&[
                255,
                256,
                511,
                512,
                65535,
                65536,
                u64::from(u32::MAX),
                1 << 63,
            ]),
            2 => self.next(),
            _ => self.below(300) as u64,
        }
    }

    fn span(&mut self) -> Span {
        if self.one_in(4) {
            return Span::default();
        }
        Span {
            offset: self.number() as u32,
            len: self.number() as u32,
        }
    }

    fn spanned<T>(&mut self, node: T) -> Spanned<T> {
        let span = self.span();
        Spanned::new(node, span)
    }

    fn name(&mut self) -> Name {
        let known = ["a", "b", "ab", "T", "limit", "doc", "reason", "MAX_SIZE"];
        match self.below(6) {
            0 => {
                let len = self.below(6);
                Name(self.bytes(len))
            }
            1 => self
                .pick(&["", "\"", "\\", "#", "a b", "\n\t", "é", "@3"])
                .into(),
            _ => self.pick(&known).into(),
        }
    }

    fn spanned_name(&mut self) -> Spanned<Name> {
        let name = self.name();
        self.spanned(name)
    }

    fn ordinal(&mut self) -> u64 {
        u64::from(self.number() as u32)
    }

    fn boxed_type(&mut self, depth: usize) -> Box<Spanned<TypeExpr>> {
        Box::new(self.ty(depth))
    }

    pub fn ty(&mut self, depth: usize) -> Spanned<TypeExpr> {
        use PrimitiveType as P;
        let wrapped = if depth == 0 { 6 } else { 19 };
        let next = depth.saturating_sub(1);
        let ty = match self.below(wrapped) {
            0 => TypeExpr::Primitive(self.pick(&[P::Bool, P::U8, P::I64, P::F32, P::Void])),
            1 => TypeExpr::SubByte(SubByteType {
                signed: self.one_in(2),
                bits: self.next() as u8,
            }),
            2 => TypeExpr::Semantic(self.pick(&[SemanticType::String, SemanticType::Hash])),
            3 => TypeExpr::Named(self.name()),
            4 => TypeExpr::Qualified(self.name(), self.name()),
            5 => TypeExpr::BitsInline((0..self.below(4)).map(|_| self.name()).collect()),
            6 => TypeExpr::Generic(self.name(), self.boxed_type(next)),
            7 => TypeExpr::Optional(self.boxed_type(next)),
            8 => TypeExpr::Array(self.boxed_type(next)),
            9 => TypeExpr::FixedArray(self.boxed_type(next), self.number()),
            10 => TypeExpr::Set(self.boxed_type(next)),
            11 => TypeExpr::Map(self.boxed_type(next), self.boxed_type(next)),
            12 => TypeExpr::Result(self.boxed_type(next), self.boxed_type(next)),
            13 => TypeExpr::Vec2(self.boxed_type(next)),
            14 => TypeExpr::Vec3(self.boxed_type(next)),
            15 => TypeExpr::Vec4(self.boxed_type(next)),
            16 => TypeExpr::Quat(self.boxed_type(next)),
            17 => TypeExpr::Mat3(self.boxed_type(next)),
            _ => TypeExpr::Mat4(self.boxed_type(next)),
        };
        self.spanned(ty)
    }

    fn operand(&mut self) -> Spanned<WhereOperand> {
        let operand = match self.below(6) {
            0 => WhereOperand::Int(self.number() as i64),
            1 => WhereOperand::Float(match self.below(3) {
                0 => f64::from_bits(self.next()),
                1 => self.pick(&[f64::NAN, f64::INFINITY, -0.0, 0.1, 1e300, 5e-324]),
                _ => self.below(100) as f64 / 4.0,
            }),
            2 => WhereOperand::String,
            3 => WhereOperand::Bool(self.one_in(2)),
            4 => WhereOperand::Value,
            _ => WhereOperand::ConstRef(self.name()),
        };
        self.spanned(operand)
    }

    fn boxed_condition(&mut self, depth: usize) -> Box<Spanned<WhereExpr>> {
        Box::new(self.condition(depth))
    }

    fn condition(&mut self, depth: usize) -> Spanned<WhereExpr> {
        let ops = [
            CmpOp::Eq,
            CmpOp::Ne,
            CmpOp::Lt,
            CmpOp::Gt,
            CmpOp::Le,
            CmpOp::Ge,
        ];
        let next = depth.saturating_sub(1);
        let condition = match self.below(if depth == 0 { 4 } else { 7 }) {
            0 => WhereExpr::Cmp {
                op: self.pick(&ops),
                operand: self.operand(),
            },
            1 => WhereExpr::LenCmp {
                op: self.pick(&ops),
                operand: self.operand(),
            },
            2 => WhereExpr::Range {
                low: self.operand(),
                high: self.operand(),
                exclusive_high: self.one_in(2),
            },
            3 => WhereExpr::LenRange {
                low: self.operand(),
                high: self.operand(),
                exclusive_high: self.one_in(2),
            },
            4 => WhereExpr::And(self.boxed_condition(next), self.boxed_condition(next)),
            5 => WhereExpr::Or(self.boxed_condition(next), self.boxed_condition(next)),
            _ => WhereExpr::Not(self.boxed_condition(next)),
        };
        self.spanned(condition)
    }

    fn annotation(&mut self) -> Annotation {
        let args = (0..self.below(3)).map(|_| {
            let key = match self.name() {
                Name(bytes) if bytes.is_empty() => None,
                name => Some(name),
            };
            let value = match self.below(6) {
                0 => AnnotationValue::Int(self.number()),
                1 => AnnotationValue::Hex(self.number()),
                2 => AnnotationValue::Str,
                3 => AnnotationValue::Bool(self.one_in(2)),
                4 => AnnotationValue::Ident,
                _ => AnnotationValue::UpperIdent,
            };
            AnnotationArg {
                key: if self.one_in(2) { None } else { key },
                value,
                span: self.span(),
            }
        });
        let args = args.collect();
        Annotation {
            name: self.name(),
            span: self.span(),
            args,
        }
    }

    fn field(&mut self) -> MessageField {
        MessageField {
            name: self.spanned_name(),
            ordinal: {
                let ordinal = self.ordinal();
                self.spanned(ordinal)
            },
            annotations: (0..self.below(3)).map(|_| self.annotation()).collect(),
            ty: self.ty(3),
            where_clause: if self.one_in(2) {
                None
            } else {
                Some(self.condition(3))
            },
        }
    }

    fn tombstone(&mut self) -> Tombstone {
        Tombstone {
            ordinal: self.ordinal(),
            span: self.span(),
        }
    }

    fn message_items(&mut self) -> Vec<MessageBodyItem> {
        (0..self.below(5))
            .map(|_| match self.below(4) {
                0 => MessageBodyItem::Tombstone(self.tombstone()),
                1 => MessageBodyItem::Invariant(self.span()),
                _ => MessageBodyItem::Field(self.field()),
            })
            .collect()
    }

    fn variant(&mut self) -> Variant {
        let ordinal = self.ordinal();
        Variant {
            name: self.spanned_name(),
            ordinal: self.spanned(ordinal),
        }
    }

    fn union_item(&mut self) -> UnionBodyItem {
        if self.one_in(4) {
            return UnionBodyItem::Tombstone(self.tombstone());
        }
        let Variant { name, ordinal } = self.variant();
        UnionBodyItem::Variant(UnionVariant {
            name,
            ordinal,
            fields: self.message_items(),
        })
    }

    fn body(&mut self) -> Body {
        let items = self.below(5);
        match self.below(5) {
            0 => Body::Message(self.message_items()),
            1 => {
                let backing = self.pick(&[EnumBacking::U8, EnumBacking::U64]);
                let variant = |random: &mut Random| match random.below(3) {
                    0 => EnumBodyItem::Tombstone(random.tombstone()),
                    _ => EnumBodyItem::Variant(random.variant()),
                };
                Body::Enum {
                    backing: self.one_in(2).then(|| self.spanned(backing)),
                    body: (0..items).map(|_| variant(self)).collect(),
                }
            }
            2 => {
                let bit = |random: &mut Random| match random.below(3) {
                    0 => FlagsBodyItem::Tombstone(random.tombstone()),
                    _ => FlagsBodyItem::Bit(random.variant()),
                };
                Body::Flags((0..items).map(|_| bit(self)).collect())
            }
            3 => Body::Union((0..items).map(|_| self.union_item()).collect()),
            _ => Body::Newtype(self.ty(3)),
        }
    }

    fn context(&mut self) -> Result<Context, BuildError> {
        let mut context = Context::new();
        for _ in 0..self.below(5) {
            let name = self.spanned_name();
            match self.below(8) {
                0 => context.wildcard(self.span())?,
                1 | 2 => context.import(&name)?,
                3 => context.declare(&name, &DeclKind::Newtype(self.ty(2)))?,
                4 => context.declare(&name, &DeclKind::Config)?,
                5 => context.declare(&name, &DeclKind::Const)?,
                6 => context.declare(&name, &DeclKind::Impl)?,
                _ => context.declare(&name, &DeclKind::Message)?,
            }
        }
        Ok(context)
    }

    /// A sheet laid out from a random declaration.
    pub fn well_formed(&mut self) -> Sheet {
        let decl = Decl {
            name: self.spanned_name(),
            body: self.body(),
        };
        let context = self.context().expect("the context is small");
        context.sheet(&decl).expect("the declaration is small")
    }

    /// A sheet of random records: known kinds more often than others, with noise everywhere.
    pub fn noisy(&mut self) -> Sheet {
        let len = self.below(40);
        let names = match self.below(3) {
            0 => self.bytes(len),
            1 => vec![b'a'; len],
            _ => b"abcabc\"\\#limit".to_vec(),
        };
        let record = |random: &mut Random| {
            let kind = match random.below(8) {
                0 => random.next() as u8,
                _ => KINDS[random.below(KINDS.len())].number,
            };
            let small = random.one_in(2);
            Record {
                kind,
                sub: random.number() as u8 & if small { 7 } else { 255 },
                name_len: random.pick(&[0, 1, 2, 3, random_byte(len)]),
                byte3: random.pick(&[0, 0, 0, 1, 255]),
                name_offset: match random.below(6) {
                    0 => random.next() as u32,
                    _ => random.below(names.len() + 3) as u32,
                },
                span: random.span(),
                ordinal_span: random.span(),
                value: random.number(),
            }
        };
        let records: Vec<Record> = (0..self.below(30)).map(|_| record(self)).collect();
        let mut records = sheet_of(&records);
        if self.one_in(8) {
            let rest = self.below(32);
            records.extend(self.bytes(rest));
        }
        Sheet { records, names }
    }

    /// Random bytes.
    pub fn any(&mut self) -> Sheet {
        let (records, names) = (32 * self.below(12), self.below(300));
        Sheet {
            records: self.bytes(records),
            names: self.bytes(names),
        }
    }

    /// A well-formed sheet with a few bytes changed.
    pub fn spoilt(&mut self) -> Sheet {
        let mut sheet = self.well_formed();
        for _ in 0..=self.below(3) {
            let at = self.below(sheet.records.len());
            sheet.records[at] = self.number() as u8;
        }
        if !sheet.names.is_empty() && self.one_in(3) {
            let at = self.below(sheet.names.len());
            sheet.names[at] = self.next() as u8;
        }
        sheet
    }
}

fn random_byte(len: usize) -> u8 {
    (len * 7 % 256) as u8
}
