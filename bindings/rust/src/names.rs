//! A names text that equal names share a part of.

use std::collections::HashMap;

/// A names text that grows at its end.
#[derive(Debug, Clone, Default)]
pub(crate) struct Names {
    pub(crate) text: Vec<u8>,
    /// Where the names stand that were placed so far.
    placed: HashMap<Vec<u8>, usize>,
}

impl Names {
    /// Where a name stands, if it has been placed. The empty name stands at the start.
    pub(crate) fn find(&self, name: &[u8]) -> Option<usize> {
        if name.is_empty() {
            return Some(0);
        }
        self.placed.get(name).copied()
    }

    /// Where a name stands; one that was not placed yet is put at the end.
    pub(crate) fn place(&mut self, name: &[u8]) -> usize {
        if let Some(offset) = self.find(name) {
            return offset;
        }
        let offset = self.text.len();
        self.text.extend_from_slice(name);
        self.placed.insert(name.to_vec(), offset);
        offset
    }

    /// Takes back the names that were put at that length of the text or later.
    pub(crate) fn cut(&mut self, len: usize) {
        self.text.truncate(len);
        self.placed.retain(|_, offset| *offset < len);
    }
}
