//! One case: the library against the second reading on buffers of every sort, and against
//! the oracles.

use super::entry::{call, Part, Room, Values, GUARD};
use crate::against::{against_oracles, Outcome};
use crate::format::{LIST_LIMIT, VIOLATION};
use crate::generate::Case;
use crate::hex;
use crate::random::Random;
use crate::reading::{answer, written, Answer, Violation};
use std::cell::Cell;
use std::ops::Range;
use std::sync::atomic::{AtomicU64, Ordering};

const ROOM: usize = 1 << 16;

/// The sorts of list buffers.
#[derive(Debug, Clone, Copy, PartialEq, Eq)]
pub enum Buffer {
    /// Length 0 at address 0.
    Absent,
    /// Length 0 at an address.
    Empty,
    /// Whole records, fewer than there are violations.
    Short,
    /// Its end is inside a record that it has not the whole room for.
    Cut,
    Exact,
    Long,
    /// Of `LIST_LIMIT` bytes.
    Whole,
}

pub const BUFFERS: [Buffer; 7] = [
    Buffer::Absent,
    Buffer::Empty,
    Buffer::Short,
    Buffer::Cut,
    Buffer::Exact,
    Buffer::Long,
    Buffer::Whole,
];

impl Buffer {
    /// A length of this sort for a list of `total` violations, `None` if there is none.
    fn len(self, total: usize, random: &mut Random) -> Option<usize> {
        match self {
            Buffer::Absent | Buffer::Empty => Some(0),
            Buffer::Short => (total > 1).then(|| random.between(1, total - 1) * VIOLATION),
            Buffer::Cut => (total > 0)
                .then(|| random.below(total) * VIOLATION + random.between(1, VIOLATION - 1)),
            Buffer::Exact => (total > 0).then_some(total * VIOLATION),
            Buffer::Long => Some(total * VIOLATION + random.between(1, 100)),
            Buffer::Whole => Some(LIST_LIMIT),
        }
    }
}

/// How many calls each sort of buffer had.
#[derive(Default)]
pub struct Calls([AtomicU64; BUFFERS.len()]);

impl Calls {
    pub fn of(&self, buffer: Buffer) -> u64 {
        self.0[buffer as usize].load(Ordering::Relaxed)
    }

    pub fn sum(&self) -> u64 {
        BUFFERS.iter().map(|&buffer| self.of(buffer)).sum()
    }
}

/// What a call leaves: its numbers, and the list with what stands around it.
pub struct Left<'a> {
    pub values: Values,
    pub bytes: &'a mut [u8],
    /// Where in the bytes the list is.
    pub list: Range<usize>,
}

/// Gets a case's number and what a call left before it is compared, to spoil it in a test.
pub type Spoil<'a> = &'a (dyn Fn(u64, &mut Left) + Sync);

/// One thread's memory for its calls.
pub struct Judge<'a> {
    sheet: Room,
    names: Room,
    list: Room,
    noise: Vec<u8>,
    calls: &'a Calls,
    spoil: Spoil<'a>,
}

thread_local! {
    /// The case that this thread compares.
    static NOW: Cell<*const Case> = const { Cell::new(std::ptr::null()) };
}

/// Prints the case that this thread compares.
pub fn print_case_now() {
    let case = NOW.get();
    if !case.is_null() {
        let Case { sheet, names, .. } = unsafe { &*case };
        println!("sheet {}\nnames {}", hex(sheet), hex(names));
    }
}

impl<'a> Judge<'a> {
    pub fn new(calls: &'a Calls, spoil: Spoil<'a>) -> Judge<'a> {
        let mut random = Random::new(0, 0);
        Judge {
            sheet: Room::new(ROOM),
            names: Room::new(ROOM),
            list: Room::new(ROOM),
            noise: (0..2 * ROOM).map(|_| random.byte()).collect(),
            calls,
            spoil,
        }
    }

    /// The second reading's answer, and what the comparison of the library with it and with
    /// the oracles comes to.
    pub fn judge(&mut self, i: u64, case: &Case) -> (Answer, Outcome) {
        NOW.set(case);
        let reading = answer(&case.sheet, &case.names);
        let outcome = match self.library(i, case, &reading) {
            Ok(library) => against_oracles(&case.sheet, &case.names, &library),
            Err(message) => Outcome::Different(message),
        };
        NOW.set(std::ptr::null());
        (reading, outcome)
    }

    /// The library's answer, if on every buffer it is the one wanted.
    fn library(&mut self, i: u64, case: &Case, wanted: &Answer) -> Result<Answer, String> {
        let mut random = Random::new(i, case.sheet.len() as u64);
        let sheet = self.sheet.lend(&case.sheet, &mut random);
        let names = self.names.lend(&case.names, &mut random);
        let mut list = Vec::new();
        for buffer in BUFFERS {
            if let Some(len) = buffer.len(wanted.list.len(), &mut random) {
                self.calls.0[buffer as usize].fetch_add(1, Ordering::Relaxed);
                list = self.called(i, [sheet, names], (buffer, len), wanted, &mut random)?;
            }
        }
        if !self.sheet.holds(sheet, &case.sheet) || !self.names.holds(names, &case.names) {
            return Err("the sheet or the names text was changed".to_string());
        }
        // A list tells neither rule nor record: its violations are the reading's.
        for (told, read) in list.iter_mut().zip(&wanted.list) {
            (told.rule, told.record) = (read.rule, read.record);
        }
        let Answer {
            number,
            index,
            total,
            errors,
            ..
        } = *wanted;
        Ok(Answer {
            number,
            index,
            total,
            errors,
            list,
        })
    }

    /// Calls with a buffer full of noise, and compares the answer and every byte. What the
    /// buffer then has is read back.
    fn called(
        &mut self,
        i: u64,
        [sheet, names]: [Part; 2],
        (buffer, len): (Buffer, usize),
        wanted: &Answer,
        random: &mut Random,
    ) -> Result<Vec<Violation>, String> {
        let at = self.list.place(len, random);
        let zone = at.saturating_sub(GUARD)..(at + len + GUARD).min(self.list.len());
        let list = at - zone.start..at - zone.start + len;
        let noise = random.below(self.noise.len() - zone.len());
        let mut expected = self.noise[noise..noise + zone.len()].to_vec();
        self.list.bytes()[zone.clone()].copy_from_slice(&expected);
        let part = match buffer {
            Buffer::Absent => Part::null(),
            Buffer::Empty if random.chance(50) => Part::dangling(),
            _ => self.list.part(at, len),
        };
        let mut left = Left {
            values: call(sheet, names, part),
            bytes: &mut self.list.bytes()[zone],
            list: list.clone(),
        };
        (self.spoil)(i, &mut left);
        written(wanted, &mut expected[list.clone()]);
        if left.values == Values::of(wanted) && left.bytes == expected {
            return Ok(read_back(&left.bytes[list], wanted.list.len()));
        }
        Err(difference((buffer, len), &left, wanted, &expected))
    }
}

/// The library's answer in a buffer that holds every list.
pub fn library_answer(room: &mut Room, sheet: Part, names: Part) -> Answer {
    let at = room.len() - LIST_LIMIT;
    room.bytes()[at..].fill(0xA5);
    let values = call(sheet, names, room.part(at, LIST_LIMIT));
    Answer {
        number: values.number,
        index: values.index,
        total: values.total,
        errors: values.errors,
        list: read_back(&room.bytes()[at..], values.total as usize),
    }
}

/// The first `total` violations of a list; it does not tell rule and record.
fn read_back(list: &[u8], total: usize) -> Vec<Violation> {
    let word = |bytes: &[u8]| u32::from_le_bytes(bytes.try_into().unwrap());
    let violation = |bytes: &[u8]| Violation {
        class: u16::from_le_bytes([bytes[0], bytes[1]]),
        severity: bytes[2],
        offset: word(&bytes[4..8]),
        len: word(&bytes[8..]),
        rule: 0,
        record: 0,
    };
    list.chunks_exact(VIOLATION)
        .take(total)
        .map(violation)
        .collect()
}

fn difference(
    (buffer, len): (Buffer, usize),
    left: &Left,
    wanted: &Answer,
    expected: &[u8],
) -> String {
    let mut lines = format!(
        "list of {len} bytes ({buffer:?})\nlibrary {:?}\nwanted  {:?}",
        left.values,
        Values::of(wanted)
    );
    let equal = left.bytes.iter().zip(expected).take_while(|(a, b)| a == b);
    let at = equal.count();
    if at < expected.len() {
        let shown = at.saturating_sub(2 * VIOLATION)..(at + 2 * VIOLATION).min(expected.len());
        lines += &format!(
            "\nfirst differing byte of the list: {}; from {} on\nlibrary {}\nwanted  {}",
            at as i64 - left.list.start as i64,
            shown.start as i64 - left.list.start as i64,
            hex(&left.bytes[shown.clone()]),
            hex(&expected[shown]),
        );
    }
    lines
}
