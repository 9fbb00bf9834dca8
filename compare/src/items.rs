//! The items of an accepted sheet's body, each whole.

use crate::format::{kind, sub, Record, RECORD};

/// An item's records.
pub type Item = Vec<Record>;

/// What stands before the items, and the items, each whole.
pub struct Body {
    pub front: Vec<Record>,
    pub head: u8,
    pub items: Vec<Item>,
}

impl Body {
    pub fn of(sheet: &[u8]) -> Body {
        let mut records = sheet.chunks_exact(RECORD).map(Record::decode);
        let mut front: Vec<Record> = Vec::new();
        while front.last().is_none_or(|record| record.kind != kind::HEAD) {
            front.extend(records.next());
        }
        let head = front[front.len() - 1].sub;
        let starts = if head == sub::HEAD_MESSAGE {
            FIELD_ITEMS
        } else {
            VARIANT_ITEMS
        };
        let rest: Vec<Record> = records.collect();
        let (before, items) = split(&rest, starts);
        front.extend(before);
        Body { front, head, items }
    }

    pub fn sheet(&self) -> Vec<u8> {
        let records = self.front.iter().chain(self.items.iter().flatten());
        records.flat_map(Record::encode).collect()
    }

    pub fn is_union(&self) -> bool {
        self.head == sub::HEAD_UNION
    }

    /// The field lists: a message's items, or each variant's fields.
    pub fn field_lists(&self) -> Vec<Vec<Item>> {
        match self.head {
            sub::HEAD_MESSAGE => vec![self.items.clone()],
            sub::HEAD_UNION => self
                .items
                .iter()
                .map(|item| split(item, FIELD_ITEMS).1)
                .collect(),
            _ => Vec::new(),
        }
    }
}

pub const FIELD_ITEMS: &[u8] = &[kind::FIELD, kind::FIELD_TOMBSTONE, kind::INVARIANT];
const VARIANT_ITEMS: &[u8] = &[kind::VARIANT, kind::TOMBSTONE];

/// The records before the first start, and those from each start to the next.
pub fn split(records: &[Record], starts: &[u8]) -> (Vec<Record>, Vec<Item>) {
    let mut before = Vec::new();
    let mut items: Vec<Item> = Vec::new();
    for record in records {
        if starts.contains(&record.kind) {
            items.push(vec![*record]);
        } else {
            items.last_mut().unwrap_or(&mut before).push(*record);
        }
    }
    (before, items)
}
