//! The check on generated sheets.

mod common;

use common::generate::Random;
use vexil_check::format::LIST_LIMIT;
use vexil_check::*;

#[test]
fn what_the_builder_lays_out_is_turned_down_for_its_declarations_alone() {
    let mut random = Random::new(5);
    let mut accepted = 0;
    for _ in 0..4000 {
        let sheet = random.well_formed();
        match sheet.report().answer {
            Answer::Accepted { .. } => accepted += 1,
            Answer::Refused { refusal, .. } => assert!(
                [Refusal::SecondDeclaration, Refusal::EndlessChain].contains(&refusal),
                "{refusal}"
            ),
        }
    }
    assert!(accepted > 2000, "{accepted} of 4000 are accepted");
}

#[test]
fn answers_and_lists_agree() {
    let mut random = Random::new(6);
    for _ in 0..1000 {
        for sheet in [random.well_formed(), random.spoilt(), random.noisy()] {
            let report = sheet.report();
            let mut list = vec![0xa5; random.below(300)];
            assert_eq!(sheet.check(&mut list), report.answer);
            let Answer::Accepted { total, errors } = report.answer else {
                assert!(list.iter().all(|byte| *byte == 0xa5));
                continue;
            };
            assert_eq!(report.violations.len(), total as usize);
            assert!(report.violations.len() * Violation::SIZE <= LIST_LIMIT);
            let is_error = |v: &&Violation| v.severity == Severity::Error;
            assert_eq!(
                report.violations.iter().filter(is_error).count(),
                errors as usize
            );
            let written = Violations::new(&list, total);
            let end = written.len() * Violation::SIZE;
            assert!(written.eq(report
                .violations
                .iter()
                .copied()
                .take(end / Violation::SIZE)));
            assert!(list[end..].iter().all(|byte| *byte == 0xa5));
            assert!(end + Violation::SIZE > list.len() || end / Violation::SIZE == total as usize);
        }
    }
}
