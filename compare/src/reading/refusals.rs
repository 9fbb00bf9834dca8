//! Rows 1 to 9: the records read in turn, up to the first fault.

use super::tree::{
    Annotation, Body, Condition, Context, Declaration, Field, FieldItem, Sheet, Type, VariantItem,
};
use crate::format::{
    condition_parts, has_name, has_ordinal, kind, sub, subs, type_parts, Record, DEPTH_LIMIT,
    NAMES_LIMIT, RECORD, SHEET_LIMIT,
};
use std::collections::{HashMap, HashSet};

pub struct Refusal {
    pub number: u32,
    pub index: usize,
}

type Read<T> = Result<T, Refusal>;

/// The records, if the lengths pass. Rows 1 and 2.
pub fn sheet<'a>(bytes: &[u8], names: &'a [u8]) -> Read<Sheet<'a>> {
    if bytes.len() % RECORD != 0 || bytes.len() > SHEET_LIMIT {
        return Err(Refusal {
            number: 1,
            index: 0,
        });
    }
    if names.len() > NAMES_LIMIT {
        return Err(Refusal {
            number: 2,
            index: 0,
        });
    }
    Ok(Sheet {
        records: bytes.chunks_exact(RECORD).map(Record::decode).collect(),
        names,
    })
}

/// Context and body of a sheet. Rows 3 to 9.
pub fn read<'a>(sheet: &Sheet<'a>) -> Read<(Context<'a>, Body)> {
    let mut reader = Reader { sheet, next: 0 };
    let context = reader.context()?;
    let body = reader.head_and_body()?;
    no_endless_chain(sheet, &context)?;
    Ok((context, body))
}

/// Reads record after record. A record is looked at only when all before it are
/// faultless, so the first fault met is the sheet's first.
struct Reader<'s, 'a> {
    sheet: &'s Sheet<'a>,
    next: usize,
}

impl<'s, 'a> Reader<'s, 'a> {
    fn refuse<T>(&self, number: u32) -> Read<T> {
        Err(Refusal {
            number,
            index: self.next,
        })
    }

    /// The next record's kind, `None` at the end. Rows 3, 4 and 5.
    fn kind(&self) -> Read<Option<u8>> {
        let Some(record) = self.sheet.records.get(self.next) else {
            return Ok(None);
        };
        if !is_known(record) {
            return self.refuse(3);
        }
        let names_end = self.sheet.names.len() as u64;
        if has_name(record.kind, record.sub) && record.name_end() > names_end {
            return self.refuse(4);
        }
        if has_ordinal(record.kind) && record.value > u64::from(u32::MAX) {
            return self.refuse(5);
        }
        Ok(Some(record.kind))
    }

    fn take(&mut self) -> usize {
        self.next += 1;
        self.next - 1
    }

    /// The records of this kind that stand here.
    fn run_of(&mut self, kind: u8) -> Read<Vec<usize>> {
        let mut run = Vec::new();
        while self.kind()? == Some(kind) {
            run.push(self.take());
        }
        Ok(run)
    }

    /// Any 1, 2, 3, up to the head.
    fn context(&mut self) -> Read<Context<'a>> {
        let mut context = Context {
            declarations: Vec::new(),
            declared: HashMap::new(),
            imported: HashSet::new(),
            wildcard: false,
        };
        loop {
            match self.kind()? {
                Some(kind::DECLARATION) => self.declaration(&mut context)?,
                Some(kind::IMPORT) => {
                    let at = self.take();
                    context.imported.insert(self.sheet.name(at));
                }
                Some(kind::WILDCARD) => {
                    self.take();
                    context.wildcard = true;
                }
                Some(kind::HEAD) => return Ok(context),
                _ => return self.refuse(6),
            }
        }
    }

    /// A kind 1, with its inner type if it is a newtype. Row 8.
    fn declaration(&mut self, context: &mut Context<'a>) -> Read<()> {
        let name = self.sheet.name(self.next);
        if context.declared.contains_key(name) {
            return self.refuse(8);
        }
        let at = self.take();
        let sub = self.sheet.sub(at);
        let inner = if sub == sub::NEWTYPE {
            Some(self.ty(1)?)
        } else {
            None
        };
        context.declared.insert(name, context.declarations.len());
        context.declarations.push(Declaration { at, sub, inner });
        Ok(())
    }

    /// The head, its body, the end.
    fn head_and_body(&mut self) -> Read<Body> {
        let head = self.take();
        let body = match self.sheet.sub(head) {
            sub::HEAD_MESSAGE => Body::Message(self.field_items()?),
            sub::HEAD_ENUM => self.enum_body()?,
            sub::HEAD_FLAGS => Body::Flags(self.variant_items(false)?),
            sub::HEAD_UNION => Body::Union(self.variant_items(true)?),
            _ => Body::Newtype(self.ty(1)?),
        };
        match self.kind()? {
            None => Ok(body),
            Some(_) => self.refuse(6),
        }
    }

    /// The 11, 12 and 13 that stand here, each whole.
    fn field_items(&mut self) -> Read<Vec<FieldItem>> {
        let mut items = Vec::new();
        loop {
            match self.kind()? {
                Some(kind::FIELD) => items.push(FieldItem::Field(self.field()?)),
                Some(kind::FIELD_TOMBSTONE) => items.push(FieldItem::Tombstone(self.take())),
                Some(kind::INVARIANT) => items.push(FieldItem::Invariant(self.take())),
                _ => return Ok(items),
            }
        }
    }

    fn enum_body(&mut self) -> Read<Body> {
        let backing = match self.kind()? {
            Some(kind::BACKING) => Some(self.take()),
            _ => None,
        };
        Ok(Body::Enum {
            backing,
            items: self.variant_items(false)?,
        })
    }

    /// The 14 and 15 that stand here; a union's variants with their fields.
    fn variant_items(&mut self, with_fields: bool) -> Read<Vec<VariantItem>> {
        let mut items = Vec::new();
        loop {
            match self.kind()? {
                Some(kind::VARIANT) => {
                    let at = self.take();
                    let fields = if with_fields {
                        self.field_items()?
                    } else {
                        Vec::new()
                    };
                    items.push(VariantItem::Variant { at, fields });
                }
                Some(kind::TOMBSTONE) => items.push(VariantItem::Tombstone(self.take())),
                _ => return Ok(items),
            }
        }
    }

    /// A field: annotations, one type, at most one condition.
    fn field(&mut self) -> Read<Field> {
        let at = self.take();
        let mut annotations = Vec::new();
        while self.kind()? == Some(kind::ANNOTATION) {
            let at = self.take();
            let arguments = self.run_of(kind::ARGUMENT)?;
            annotations.push(Annotation { at, arguments });
        }
        let ty = self.ty(1)?;
        let condition = match self.kind()?.and_then(condition_parts) {
            Some(_) => Some(self.condition(1)?),
            None => None,
        };
        Ok(Field {
            at,
            annotations,
            ty,
            condition,
        })
    }

    /// A type of this depth. Row 7.
    fn ty(&mut self, depth: usize) -> Read<Type> {
        let kind = self.kind()?;
        let Some(count) = kind.and_then(type_parts) else {
            return self.refuse(6);
        };
        if depth > DEPTH_LIMIT {
            return self.refuse(7);
        }
        let at = self.take();
        let mut parts = Vec::with_capacity(count);
        for _ in 0..count {
            parts.push(self.ty(depth + 1)?);
        }
        let is_bits = kind == Some(kind::BITS);
        let bit_names = if is_bits {
            self.run_of(kind::BIT_NAME)?
        } else {
            Vec::new()
        };
        Ok(Type {
            at,
            parts,
            bit_names,
        })
    }

    /// A condition of this depth. Row 7.
    fn condition(&mut self, depth: usize) -> Read<Condition> {
        let Some((conditions, operands)) = self.kind()?.and_then(condition_parts) else {
            return self.refuse(6);
        };
        if depth > DEPTH_LIMIT {
            return self.refuse(7);
        }
        let mut whole = Condition {
            at: self.take(),
            parts: Vec::new(),
            operands: Vec::new(),
        };
        for _ in 0..conditions {
            whole.parts.push(self.condition(depth + 1)?);
        }
        for _ in 0..operands {
            whole.operands.push(self.operand(depth + 1)?);
        }
        Ok(whole)
    }

    /// An operand of this depth. Row 7.
    fn operand(&mut self, depth: usize) -> Read<usize> {
        if self.kind()? != Some(kind::OPERAND) {
            return self.refuse(6);
        }
        if depth > DEPTH_LIMIT {
            return self.refuse(7);
        }
        Ok(self.take())
    }
}

/// Row 3's opposite: a known kind, a known sub if the kind has subs, byte 3 zero.
fn is_known(record: &Record) -> bool {
    let sub_known = subs(record.kind).is_some_and(|count| count == 0 || record.sub < count);
    sub_known && record.byte3 == 0
}

/// Row 9: the first newtype whose chain of named newtypes never ends.
fn no_endless_chain(sheet: &Sheet, context: &Context) -> Read<()> {
    for declaration in &context.declarations {
        let mut reached = next_newtype(sheet, context, declaration);
        let mut steps = 0;
        while let Some(newtype) = reached {
            // A chain that ends visits no declaration twice.
            if steps > context.declarations.len() {
                return Err(Refusal {
                    number: 9,
                    index: declaration.at,
                });
            }
            steps += 1;
            reached = next_newtype(sheet, context, newtype);
        }
    }
    Ok(())
}

/// The newtype that a newtype's inner type names.
fn next_newtype<'c>(
    sheet: &Sheet,
    context: &'c Context,
    declaration: &Declaration,
) -> Option<&'c Declaration> {
    let inner = declaration.inner.as_ref()?;
    if sheet.kind(inner.at) != kind::NAMED {
        return None;
    }
    context
        .declaration(sheet.name(inner.at))
        .filter(|d| d.sub == sub::NEWTYPE)
}
