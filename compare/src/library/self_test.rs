//! Whether the comparison notices a spoiled byte, wherever it is, and a byte touched that was
//! not lent.

use super::entry::Room;
use super::judge::{Calls, Judge, Left};
use crate::format::VIOLATION;
use crate::generate;
use crate::run::run_by;
use std::collections::BTreeSet;
use std::process::Command;
use std::sync::Mutex;

const SEED: u64 = 1;
const CASES: u64 = 2000;

/// The byte that is spoiled.
#[derive(Debug, Clone, Copy)]
pub enum Byte {
    /// Of the four numbers.
    Answer(usize),
    /// Of the first written record.
    First(usize),
    /// Of the last written record.
    Last(usize),
    /// The first one after the written records.
    Kept,
    /// The list's last one, if it is kept.
    End,
    BeforeTheList,
    AfterTheList,
}

/// Changes the byte; false if this call has none such.
pub fn spoil(byte: Byte, left: &mut Left) -> bool {
    let list = left.list.clone();
    let violations = (list.len() / VIOLATION).min(left.values.total as usize);
    let written = list.start + violations * VIOLATION;
    let at = match byte {
        Byte::Answer(at) => {
            let values = &mut left.values;
            let numbers = [
                &mut values.number,
                &mut values.index,
                &mut values.total,
                &mut values.errors,
            ];
            *numbers[at / 4] ^= 1 << (at % 4 * 8);
            return true;
        }
        Byte::First(at) => (violations > 0).then_some(list.start + at),
        Byte::Last(at) => (violations > 0).then(|| written - VIOLATION + at),
        Byte::Kept => (written < list.end).then_some(written),
        Byte::End => (written < list.end).then(|| list.end - 1),
        Byte::BeforeTheList => list.start.checked_sub(1),
        Byte::AfterTheList => (list.end < left.bytes.len()).then_some(list.end),
    };
    if let Some(at) = at {
        left.bytes[at] ^= 1;
    }
    at.is_some()
}

/// True if each spoiled byte was noticed, and nothing where none was.
pub fn notices() -> bool {
    let sound = differences(&|_, _| {});
    println!("as they are: {sound} differences");
    let bytes = (0..16).map(Byte::Answer);
    let bytes = bytes.chain((0..VIOLATION).map(Byte::First));
    let bytes = bytes.chain((0..VIOLATION).map(Byte::Last));
    let around = [
        Byte::Kept,
        Byte::End,
        Byte::BeforeTheList,
        Byte::AfterTheList,
    ];
    let mut all = sound == 0;
    for byte in bytes.chain(around) {
        let spoiled: Mutex<BTreeSet<u64>> = Mutex::default();
        let noticed = differences(&|i, left| {
            if spoil(byte, left) {
                spoiled.lock().unwrap().insert(i);
            }
        });
        let spoiled = spoiled.into_inner().unwrap().len() as u64;
        println!("{byte:?}: {noticed} of {spoiled} noticed");
        all &= noticed == spoiled && spoiled > 0;
    }
    let is_stopped = touching_is_noticed();
    println!("memory that was not lent: {}", verdict(is_stopped));
    println!("self-test: {}", verdict(all && is_stopped));
    all && is_stopped
}

fn verdict(is_noticed: bool) -> &'static str {
    if is_noticed {
        "noticed"
    } else {
        "not noticed"
    }
}

fn differences(spoil: super::judge::Spoil) -> u64 {
    let calls = Calls::default();
    let judge = || {
        let mut judge = Judge::new(&calls, spoil);
        move |i, case: &_| judge.judge(i, case)
    };
    run_by(|i| generate::case(SEED, i), CASES, judge).differences
}

/// Whether this program, run to touch such memory, ends as a comparison then does.
fn touching_is_noticed() -> bool {
    let run = |option: &str| {
        let program = std::env::current_exe()?;
        Command::new(program).args(["library", option]).output()
    };
    [TOUCH_AFTER, TOUCH_BEFORE].into_iter().all(|option| {
        run(option).is_ok_and(|output| {
            let said = String::from_utf8_lossy(&output.stdout).contains(super::TOUCHED);
            output.status.code() == Some(1) && said
        })
    })
}

pub const TOUCH_AFTER: &str = "--touch-after";
pub const TOUCH_BEFORE: &str = "--touch-before";

/// Reads the byte before or after a room.
pub fn touch(is_after: bool) {
    let mut room = Room::new(1);
    let bytes = room.bytes();
    let at = if is_after {
        bytes.as_ptr_range().end
    } else {
        bytes.as_ptr().wrapping_sub(1)
    };
    unsafe { at.read_volatile() };
}
