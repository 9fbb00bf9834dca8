//! How far a record is indented.

use crate::format::{kind, sub, Kind, Record};

/// The records so far, as far as the next one's place depends on them. On a sheet that is turned down
/// it is a guess, which alters nothing: indentation is not read.
#[derive(Default)]
pub(super) struct Depth {
    in_union: bool,
    /// The place of a field list's items.
    item: usize,
    /// The place of the last record that is no part of a type or condition.
    owner: usize,
    /// The place of the last type.
    ty: usize,
    /// The places of the parts that are due, the next one last.
    due: Vec<usize>,
}

impl Depth {
    /// The place of the next record.
    pub(super) fn next(&mut self, record: &Record) -> usize {
        match Kind::of(record.kind) {
            Some(kind) if kind.is_part() => self.part(kind),
            _ if record.kind == kind::BIT_NAME => self.ty + 1,
            _ => self.own(record),
        }
    }

    /// The place of a type, a condition or an operand.
    fn part(&mut self, kind: &Kind) -> usize {
        let place = self.due.pop().unwrap_or(self.owner + 1);
        self.due
            .extend(std::iter::repeat(place + 1).take(kind.parts));
        if kind.is_type() {
            self.ty = place;
        }
        place
    }

    /// The place of a record that is no part of a type or condition.
    fn own(&mut self, record: &Record) -> usize {
        self.due.clear();
        let place = match record.kind {
            kind::FIELD | kind::FIELD_TOMBSTONE | kind::INVARIANT => self.item,
            kind::VARIANT | kind::TOMBSTONE | kind::BACKING => 1,
            kind::ANNOTATION => self.item + 1,
            kind::ARGUMENT => return self.item + 2,
            _ => 0,
        };
        match record.kind {
            kind::HEAD => {
                self.in_union = record.sub == sub::UNION_HEAD;
                self.item = 1;
            }
            kind::VARIANT if self.in_union => self.item = 2,
            _ => {}
        }
        if record.kind != kind::ANNOTATION {
            self.owner = place;
        }
        place
    }
}
