//! Cases of one kind: messages of one field, and sheets that are mostly refused.

use crate::format::{kind, sub, Record, RECORD};
use crate::generate::{self, small, Case};
use crate::items::Body;
use crate::random::Random;
use crate::reading::answer;

/// Generated cases that are tried in turn for one case stand so far apart, which is more
/// than are compared at once and takes every family's turn.
const APART: u64 = 100_000_003;

/// Case `i` of those of a seed that `choose` makes of the generator's.
fn first(seed: u64, i: u64, choose: impl Fn(Case, Random) -> Option<Case>) -> Case {
    (0..)
        .find_map(|turn| {
            let at = i + turn * APART;
            choose(generate::case(seed, at), Random::new(!seed, at))
        })
        .expect("there is no end of cases")
}

// ---------------------------------------------------------------------------
// One field
// ---------------------------------------------------------------------------

/// Case `i` of a seed: one field of a generated message or union, as a message's only item.
pub fn one_field(seed: u64, i: u64) -> Case {
    first(seed, i, |case, mut random| {
        if answer(&case.sheet, &case.names).number != 0 {
            return None;
        }
        let mut body = Body::of(&case.sheet);
        let lists = body.field_lists().into_iter().flatten();
        let fields: Vec<_> = lists.filter(|item| item[0].kind == kind::FIELD).collect();
        if fields.is_empty() {
            return None;
        }
        body.front.last_mut()?.sub = sub::HEAD_MESSAGE;
        body.items = vec![random.pick(&fields).clone()];
        let sheet = body.sheet();
        Some(Case { sheet, ..case })
    })
}

/// The numbers of the small cases that are accepted messages of one field and nothing else.
pub fn small_with_one_field() -> Vec<u64> {
    (0..small::count())
        .filter(|&i| {
            let case = small::case(i);
            has_one_field(&case.sheet) && answer(&case.sheet, &case.names).number == 0
        })
        .collect()
}

fn has_one_field(sheet: &[u8]) -> bool {
    let mut records = sheet.chunks_exact(RECORD).map(Record::decode);
    let is_message = records
        .find(|record| record.kind == kind::HEAD)
        .is_some_and(|head| head.sub == sub::HEAD_MESSAGE);
    let starts = |record: &Record| (kind::FIELD..=kind::TOMBSTONE).contains(&record.kind);
    let items: Vec<Record> = records.filter(starts).collect();
    is_message && items.len() == 1 && items[0].kind == kind::FIELD
}

// ---------------------------------------------------------------------------
// Refusals
// ---------------------------------------------------------------------------

const REFUSED: [&str; 7] = [
    "one fault",
    "several faults",
    "damaged copies",
    "any records",
    "rings",
    "depths",
    "limits of length",
];
const SMALL_REFUSED: [&str; 3] = [
    "small sheets",
    "every kind and sub",
    "small names and values",
];

/// Case `i` of a seed, of a family that holds refused sheets.
pub fn refused(seed: u64, i: u64) -> Case {
    first(seed, i, |case, _| {
        REFUSED.contains(&case.family).then_some(case)
    })
}

/// The numbers of the small cases of such families.
pub fn small_refused() -> Vec<u64> {
    (0..small::count())
        .filter(|&i| SMALL_REFUSED.contains(&small::case(i).family))
        .collect()
}
