//! Calls with odd addresses and lengths: nothing at address 0 or 1, every alignment, sheet
//! and names text in one memory, and lengths over 2^32.

use super::entry::{call, Part, Room, Values, GUARD};
use crate::draft::Draft;
use crate::format::{kind, sub, NAMES_LIMIT, VIOLATION};
use crate::generate;
use crate::reading::{answer, written, Answer};

/// How many calls there were, and what was wrong.
#[derive(Default)]
pub struct Odd {
    pub calls: u64,
    pub wrong: Vec<String>,
}

impl Odd {
    fn check(&mut self, what: &str, holds: bool) {
        self.calls += 1;
        if !holds {
            self.wrong.push(what.to_string());
        }
    }
}

const ROOM: usize = 1 << 16;
const OVER: usize = 1 << 32;
const NOISE: u8 = 0xA5;

pub fn try_all(seed: u64) -> Odd {
    let mut odd = Odd::default();
    nothing(&mut odd);
    nothing_beside_a_sheet(&mut odd);
    alignments(&mut odd);
    one_memory(&mut odd, seed);
    great_lengths(&mut odd);
    odd
}

/// No bytes: at address 0, at address 1, and next to a page that nobody may touch.
fn empty_parts(room: &Room) -> [Part; 4] {
    [
        Part::null(),
        Part::dangling(),
        room.part(0, 0),
        room.part(room.len(), 0),
    ]
}

/// Three parts of length 0 in every choice: row 6 at 0.
fn nothing(odd: &mut Odd) {
    let room = Room::new(ROOM);
    let wanted = Values::of(&answer(&[], &[]));
    for sheet in empty_parts(&room) {
        for names in empty_parts(&room) {
            for list in empty_parts(&room) {
                let what = format!("nothing: {sheet:?} {names:?} {list:?}");
                odd.check(&what, call(sheet, names, list) == wanted);
            }
        }
    }
}

/// A sheet with violations whose names are empty, and no names text or no list.
fn nothing_beside_a_sheet(odd: &mut Odd) {
    let mut draft = Draft::new();
    draft.named(kind::HEAD, sub::HEAD_MESSAGE, b"");
    for _ in 0..3 {
        draft.field(b"", 65536);
        draft.u8_type();
    }
    let sheet = draft.sheet();
    let wanted = answer(&sheet, &[]);
    let mut room = Room::new(ROOM);
    let sheet = room.put(&sheet, 1);
    let mut list_room = Room::new(ROOM);
    let len = wanted.list.len() * VIOLATION;
    for names in empty_parts(&room) {
        for list in empty_parts(&room) {
            let what = format!("no list: {names:?} {list:?}");
            odd.check(&what, call(sheet, names, list) == Values::of(&wanted));
        }
        let list = list_room.part(list_room.len() - len, len);
        let holds = called(sheet, names, list, &mut list_room, &wanted);
        odd.check(&format!("no names text: {names:?}"), holds);
    }
}

/// A sheet with names and violations, its three parts at each of 16 alignments.
fn alignments(odd: &mut Odd) {
    let mut draft = Draft::new();
    draft.head(sub::HEAD_MESSAGE);
    for name in [&b"room"[..], b"room", b"bench"] {
        draft.field(name, 70_000);
        draft.named(kind::ANNOTATION, 0, b"varint");
        draft.named(kind::NAMED, 0, b"Unknown");
    }
    let (sheet, names) = (draft.sheet(), draft.names);
    let wanted = answer(&sheet, &names);
    let len = wanted.list.len() * VIOLATION + 5;
    let mut rooms = [Room::new(ROOM), Room::new(ROOM), Room::new(ROOM)];
    for shift in 0..16 * 16 * 16 {
        let [in_sheet, in_names, in_list] = &mut rooms;
        let sheet = in_sheet.put(&sheet, GUARD + shift % 16);
        let names = in_names.put(&names, GUARD + shift / 16 % 16);
        let list = in_list.part(GUARD + shift / 256, len);
        let holds = called(sheet, names, list, in_list, &wanted);
        odd.check(&format!("alignment {shift}"), holds);
    }
}

/// Generated sheets whose names text is the sheet itself, or a part of it.
fn one_memory(odd: &mut Odd, seed: u64) {
    let mut room = Room::new(ROOM);
    let mut list_room = Room::new(ROOM);
    for i in 0..5000 {
        let sheet = generate::case(seed, i).sheet;
        let len = sheet.len().min(NAMES_LIMIT);
        for start in [0, len / 3] {
            let wanted = answer(&sheet, &sheet[start..len]);
            let at = room.len() - sheet.len();
            let lent = room.put(&sheet, at);
            let names = room.part(at + start, len - start);
            let list = list_room.part(GUARD, wanted.list.len() * VIOLATION);
            let holds = called(lent, names, list, &mut list_room, &wanted);
            odd.check(&format!("one memory, case {i} from {start} on"), holds);
        }
    }
}

/// Lengths over 2^32, which a 32-bit number would take for small ones.
fn great_lengths(odd: &mut Odd) {
    let mut great = Room::new(OVER + ROOM);
    let mut draft = Draft::new();
    draft.head(sub::HEAD_MESSAGE);
    draft.valued(kind::INVARIANT, 0, 0);
    let (good, names) = (draft.sheet(), draft.names);
    great.put(&good, 0);
    let mut room = Room::new(ROOM);
    let names_part = room.put(&names, 0);
    let sheet_part = room.put(&good, 1024);
    let list = room.part(2048, VIOLATION);
    for len in [OVER, OVER + 31, OVER + 32, OVER + good.len(), OVER + 32_768] {
        let values = call(great.part(0, len), names_part, list);
        odd.check(&format!("a sheet of {len} bytes"), refused(values, 1));
    }
    great.put(&names, 0);
    for len in [OVER, OVER + 1, OVER + names.len(), OVER + 16_384] {
        let values = call(sheet_part, great.part(0, len), list);
        odd.check(&format!("a names text of {len} bytes"), refused(values, 2));
    }
    odd.check(
        "the list is untouched",
        room.bytes()[2048..2048 + VIOLATION] == [0; VIOLATION],
    );
    let wanted = answer(&good, &names);
    for len in [OVER, OVER + 1, OVER + VIOLATION - 1, OVER + VIOLATION] {
        great.bytes()[..ROOM].fill(NOISE);
        let values = call(sheet_part, names_part, great.part(0, len));
        let mut expected = vec![NOISE; ROOM];
        written(&wanted, &mut expected);
        let is_kept = great.bytes()[OVER..].iter().all(|&byte| byte == 0);
        let holds = values == Values::of(&wanted) && great.bytes()[..ROOM] == expected;
        odd.check(&format!("a list of {len} bytes"), holds && is_kept);
    }
}

fn refused(values: Values, number: u32) -> bool {
    let wanted = Answer {
        number,
        index: 0,
        total: 0,
        errors: 0,
        list: Vec::new(),
    };
    values == Values::of(&wanted)
}

/// Whether a call with a list in a room full of noise leaves what is wanted everywhere.
fn called(sheet: Part, names: Part, list: Part, room: &mut Room, wanted: &Answer) -> bool {
    room.bytes().fill(NOISE);
    let values = call(sheet, names, list);
    let mut expected = vec![NOISE; room.len()];
    let at = room.at(list);
    written(wanted, &mut expected[at..at + list.len]);
    values == Values::of(wanted) && room.bytes() == expected
}
