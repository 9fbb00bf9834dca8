//! Puts a sheet and its names text together, record by record.

use crate::format::{kind, sub, Record, Span, RECORD};

#[derive(Debug, Clone, Default)]
pub struct Draft {
    pub records: Vec<Record>,
    pub names: Vec<u8>,
}

impl Draft {
    pub fn new() -> Draft {
        Draft::default()
    }

    /// Adds a record without a name. Its span is (10 i, 1), its ordinal's (10 i + 5, 2).
    pub fn add(&mut self, kind: u8, sub: u8) -> &mut Record {
        let place = 10 * self.records.len() as u32;
        let span = Span {
            offset: place,
            len: 1,
        };
        let ordinal_span = Span {
            offset: place + 5,
            len: 2,
        };
        self.records.push(Record {
            kind,
            sub,
            span,
            ordinal_span,
            ..Record::default()
        });
        self.records.last_mut().unwrap()
    }

    /// Adds a record whose name is put at the end of the names text.
    pub fn named(&mut self, kind: u8, sub: u8, name: &[u8]) -> &mut Record {
        let name_offset = self.names.len() as u32;
        self.names.extend_from_slice(name);
        let record = self.add(kind, sub);
        record.name_len = name.len() as u8;
        record.name_offset = name_offset;
        record
    }

    pub fn head(&mut self, sub: u8) {
        self.named(kind::HEAD, sub, b"Head");
    }

    /// Adds a field's own record.
    pub fn field(&mut self, name: &[u8], ordinal: u64) {
        self.named(kind::FIELD, 0, name).value = ordinal;
    }

    /// Adds a record with a value.
    pub fn valued(&mut self, kind: u8, sub: u8, value: u64) {
        self.add(kind, sub).value = value;
    }

    pub fn variant(&mut self, name: &[u8], ordinal: u64) {
        self.named(kind::VARIANT, 0, name).value = ordinal;
    }

    /// Adds an argument without a key.
    pub fn unkeyed(&mut self, sub: u8, value: u64) {
        self.named(kind::ARGUMENT, sub, b"").value = value;
    }

    pub fn u8_type(&mut self) {
        self.add(kind::PRIMITIVE, sub::U8);
    }

    pub fn sheet(&self) -> Vec<u8> {
        let mut bytes = Vec::with_capacity(self.records.len() * RECORD);
        for record in &self.records {
            bytes.extend_from_slice(&record.encode());
        }
        bytes
    }
}
