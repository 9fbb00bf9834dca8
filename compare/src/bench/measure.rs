//! The times of the library and of the Rust on one sheet, and that both answer the same.

use std::hint::black_box;
use std::time::{Duration, Instant};

use crate::clock;
use crate::format::{LIST_LIMIT, VIOLATION};
use crate::library::{self, Answer};

/// How much is measured of a sheet: at most `rounds` rounds, and none begun after `limit`.
#[derive(Clone, Copy)]
pub struct Effort {
    pub rounds: usize,
    pub limit: Duration,
}

/// How long a part of a round lasts at least. Short, so that on a busy machine some rounds are not interrupted.
const PART: Duration = Duration::from_micros(20);
/// Rounds that are made whatever the limit.
const LEAST_ROUNDS: usize = 10;

/// Times of one call in microseconds of the thread's clock, each the best of all rounds.
#[derive(Clone, Copy)]
pub struct Times {
    pub library: f64,
    /// The Rust's check of a ready tree.
    pub tree: f64,
    /// The Rust from the sheet on: the tree made, checked and dropped.
    pub whole: f64,
}

impl Times {
    /// Before anything is measured.
    pub const NONE: Times = Times {
        library: f64::INFINITY,
        tree: f64::INFINITY,
        whole: f64::INFINITY,
    };

    pub fn best(self, other: Times) -> Times {
        Times {
            library: self.library.min(other.library),
            tree: self.tree.min(other.tree),
            whole: self.whole.min(other.whole),
        }
    }
}

/// The number of violations of a sheet. `Err` says where library and Rust differ.
pub fn agreed(sheet: &[u8], names: &[u8]) -> Result<usize, String> {
    let found = oracle_lean::run(sheet, names)?;
    let mut expected = vec![0xA5; LIST_LIMIT];
    for (i, one) in found.iter().enumerate() {
        let bytes = &mut expected[VIOLATION * i..VIOLATION * (i + 1)];
        bytes[..2].copy_from_slice(&one.class.to_le_bytes());
        bytes[2..4].copy_from_slice(&[one.severity, 0]);
        bytes[4..8].copy_from_slice(&one.offset.to_le_bytes());
        bytes[8..].copy_from_slice(&one.len.to_le_bytes());
    }
    let errors = found.iter().filter(|one| one.severity == 0).count();
    let right = Answer {
        number: 0,
        index: 0,
        total: found.len() as u32,
        errors: errors as u32,
    };
    let mut list = vec![0xA5; LIST_LIMIT];
    let answer = library::check(sheet, names, &mut list);
    if answer != right {
        return Err(format!(
            "the library answers {answer:?}, the Rust {right:?}"
        ));
    }
    match (0..LIST_LIMIT).find(|i| list[*i] != expected[*i]) {
        Some(i) => Err(format!("the lists differ at byte {i}")),
        None => Ok(found.len()),
    }
}

/// Measures library, ready tree and whole way in turn, round by round.
pub fn measure(sheet: &[u8], names: &[u8], effort: Effort) -> Times {
    let tree = oracle_lean::build(sheet, names).expect("an accepted sheet");
    let mut list = vec![0; LIST_LIMIT];
    let mut library = Part::new(|| {
        black_box(library::check(
            black_box(sheet),
            black_box(names),
            black_box(&mut list),
        ));
    });
    let mut ready = Part::new(|| {
        black_box(oracle_lean::check(black_box(&tree)));
    });
    let mut whole = Part::new(|| {
        black_box(oracle_lean::run(black_box(sheet), black_box(names))).expect("an accepted sheet");
    });
    let start = Instant::now();
    for round in 0..effort.rounds {
        if round >= LEAST_ROUNDS && start.elapsed() > effort.limit {
            break;
        }
        library.round();
        ready.round();
        whole.round();
    }
    Times {
        library: library.best,
        tree: ready.best,
        whole: whole.best,
    }
}

/// The best time of clearing a list.
pub fn clearing() -> f64 {
    let mut list = vec![0u8; LIST_LIMIT];
    let mut part = Part::new(|| black_box(&mut list).fill(0));
    for _ in 0..200 {
        part.round();
    }
    part.best
}

/// One of the things that are measured in turn.
struct Part<F: FnMut()> {
    call: F,
    calls: usize,
    best: f64,
}

impl<F: FnMut()> Part<F> {
    /// Chooses how many calls a round makes, from the best of five.
    fn new(call: F) -> Part<F> {
        let mut part = Part {
            call,
            calls: 1,
            best: f64::INFINITY,
        };
        for _ in 0..5 {
            part.round();
        }
        part.calls = (PART.as_secs_f64() * 1e6 / part.best).ceil().max(1.0) as usize;
        part
    }

    fn round(&mut self) {
        let start = clock::now();
        for _ in 0..self.calls {
            (self.call)();
        }
        let time = (clock::now() - start).as_secs_f64() * 1e6;
        self.best = self.best.min(time / self.calls as f64);
    }
}
