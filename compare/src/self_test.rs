//! Whether the comparison notices spoiled answers.

use crate::against::RULES_OF_THE_RUST;
use crate::reading::{Answer, Violation};
use crate::run::{run, Source};

const SOURCE: Source = Source::Seed(1);
const CASES: u64 = 2000;

type Spoiler = fn(&mut Answer);

/// Each spoils one byte of the list's first violation that the Rust decides, or leaves one out.
const SPOILERS: [(&str, Spoiler); 12] = [
    ("class, byte 0", |a| first(a, |v| v.class ^= 1)),
    ("class, byte 1", |a| first(a, |v| v.class ^= 1 << 8)),
    ("severity", |a| first(a, |v| v.severity ^= 1)),
    ("offset, byte 0", |a| first(a, |v| v.offset ^= 1)),
    ("offset, byte 1", |a| first(a, |v| v.offset ^= 1 << 8)),
    ("offset, byte 2", |a| first(a, |v| v.offset ^= 1 << 16)),
    ("offset, byte 3", |a| first(a, |v| v.offset ^= 1 << 24)),
    ("length, byte 0", |a| first(a, |v| v.len ^= 1)),
    ("length, byte 3", |a| first(a, |v| v.len ^= 1 << 31)),
    ("one more", |a| {
        if let Some(&at) = decided(a).last() {
            a.list.insert(at, a.list[at]);
        }
    }),
    ("the last left out", |a| {
        if let Some(&at) = decided(a).last() {
            a.list.remove(at);
        }
    }),
    ("the first left out", |a| {
        if let Some(&at) = decided(a).first() {
            a.list.remove(at);
        }
    }),
];

fn first(answer: &mut Answer, spoil: fn(&mut Violation)) {
    if let Some(&at) = decided(answer).first() {
        spoil(&mut answer.list[at]);
    }
}

/// Where in the list the violations stand that the Rust decides.
fn decided(answer: &Answer) -> Vec<usize> {
    let is_decided = |&at: &usize| RULES_OF_THE_RUST.contains(&answer.list[at].rule);
    (0..answer.list.len()).filter(is_decided).collect()
}

/// One violation more, by a rule that the Rust has not.
fn by_another_rule(answer: &mut Answer) {
    answer.list.push(Violation {
        class: u16::MAX,
        severity: 0,
        offset: 0,
        len: 0,
        rule: RULES_OF_THE_RUST.end() + 1,
        record: 0,
    });
}

/// True if each spoiled answer was noticed, and no sound one, nor what the Rust does not decide.
pub fn notices() -> bool {
    let sound = run(SOURCE, CASES, |_| {});
    println!("as they are: {} differences", sound.differences);
    let lists = run(SOURCE, CASES, |a| first(a, |v| v.class = u16::MAX)).differences;
    let others = run(SOURCE, CASES, by_another_rule).differences;
    println!("one more, by a rule that the Rust has not: {others} differences");
    let mut all = sound.differences == 0 && others == 0 && lists > 0;
    for (what, spoiler) in SPOILERS {
        let noticed = run(SOURCE, CASES, spoiler).differences;
        println!("{what}: {noticed} of {lists} noticed");
        all &= noticed == lists;
    }
    let verdict = if all {
        "every spoiled answer was noticed"
    } else {
        "not all as it should be"
    };
    println!("{verdict}");
    all
}
