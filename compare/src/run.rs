//! The comparison in bulk, on two threads.

use crate::against::{against_oracles, Outcome};
use crate::coverage::Coverage;
use crate::generate::{self, small, Case};
use crate::reading::{answer, Answer};
use std::sync::atomic::{AtomicU64, Ordering};

const THREADS: usize = 2;
/// Cases that a thread takes at once.
const CHUNK: u64 = 500;

/// Which cases: the small ones, or those of a seed.
#[derive(Clone, Copy)]
pub enum Source {
    Small,
    Seed(u64),
}

impl Source {
    pub fn case(self, i: u64) -> Case {
        match self {
            Source::Small => small::case(i),
            Source::Seed(seed) => generate::case(seed, i),
        }
    }
}

/// A case on which two answers differ, and the second reading's.
pub struct Difference {
    pub i: u64,
    pub case: Case,
    pub answer: Answer,
    pub message: String,
}

#[derive(Default)]
pub struct Report {
    pub coverage: Coverage,
    pub differences: u64,
    /// The one with the lowest number.
    pub first: Option<Difference>,
}

impl Report {
    pub fn add(&mut self, other: Report) {
        self.coverage.add(other.coverage);
        self.differences += other.differences;
        self.keep_first(other.first);
    }

    fn note(&mut self, i: u64, case: Case, answer: Answer, outcome: Outcome) {
        let compared = !matches!(outcome, Outcome::NotAsked);
        self.coverage.count(&case, &answer, compared);
        if let Outcome::Different(message) = outcome {
            self.differences += 1;
            self.keep_first(Some(Difference {
                i,
                case,
                answer,
                message,
            }));
        }
    }

    fn keep_first(&mut self, other: Option<Difference>) {
        let Some(other) = other else { return };
        if self.first.as_ref().is_none_or(|first| other.i < first.i) {
            self.first = Some(other);
        }
    }
}

/// Compares the second reading on cases 0 to `count`. The answers go through `tamper` first,
/// which the self-test uses to spoil some; a true run hands in one that does nothing.
pub fn run(source: Source, count: u64, tamper: fn(&mut Answer)) -> Report {
    let judge = || {
        move |_, case: &Case| {
            let mut answer = answer(&case.sheet, &case.names);
            tamper(&mut answer);
            let outcome = against_oracles(&case.sheet, &case.names, &answer);
            (answer, outcome)
        }
    };
    run_by(|i| source.case(i), count, judge)
}

/// Compares cases 0 to `count`: each thread makes itself a judge, which gives the answer for
/// a case and what comparing it came to.
pub fn run_by<J>(
    case: impl Fn(u64) -> Case + Sync,
    count: u64,
    judge: impl Fn() -> J + Sync,
) -> Report
where
    J: FnMut(u64, &Case) -> (Answer, Outcome),
{
    let next = AtomicU64::new(0);
    let mut report = Report::default();
    std::thread::scope(|scope| {
        let work = || share(&case, count, &next, judge());
        let threads: Vec<_> = (0..THREADS).map(|_| scope.spawn(work)).collect();
        for thread in threads {
            report.add(
                thread
                    .join()
                    .expect("a thread of the comparison ended early"),
            );
        }
    });
    report
}

/// One thread's share: chunk after chunk until none is left.
fn share(
    case: &impl Fn(u64) -> Case,
    count: u64,
    next: &AtomicU64,
    mut judge: impl FnMut(u64, &Case) -> (Answer, Outcome),
) -> Report {
    let mut report = Report::default();
    loop {
        let start = next.fetch_add(CHUNK, Ordering::Relaxed);
        if start >= count {
            return report;
        }
        for i in start..(start + CHUNK).min(count) {
            let case = case(i);
            let (answer, outcome) = judge(i, &case);
            report.note(i, case, answer, outcome);
        }
    }
}
