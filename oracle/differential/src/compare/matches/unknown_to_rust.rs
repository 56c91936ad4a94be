//! Shots that this library refuses by check 22 or 23, which upstream lacks. They pass all checks before it, and upstream
//! places them or refuses them by one of its own checks of a match.

use super::Shown;
use crate::subject::Subject;
use matches::{Matched, by_rust_without_22, by_rust_without_23, told};
use records::Shot;

pub struct UnknownToRust {
    pub number: u32,
    by_rust: fn(&Shot) -> Option<Matched>,
    /// What upstream may return, 0 for a match, and how often it does.
    answers: Vec<(u32, u64)>,
    passed: Subject,
}

impl UnknownToRust {
    /// For each of the two checks.
    pub fn all() -> [Self; 2] {
        [
            Self::new(22, by_rust_without_22, &[0, 11, 15, 16, 17]),
            // There are two cells, so check 11 passes.
            Self::new(23, by_rust_without_23, &[0, 15, 16, 17]),
        ]
    }

    fn new(number: u32, by_rust: fn(&Shot) -> Option<Matched>, answers: &[u32]) -> Self {
        Self {
            number,
            by_rust,
            answers: answers.iter().map(|&answer| (answer, 0)).collect(),
            passed: Subject::new(format!("refused {number}: passes all checks before it")),
        }
    }

    /// Shots that also fail a later check up to 14 are skipped.
    pub fn check(&mut self, shot: &Shot, asked: &Shown) {
        let Some(matched) = (self.by_rust)(shot) else {
            return;
        };
        let number = told(&matched).number;
        let known = self
            .answers
            .iter_mut()
            .find(|(answer, _)| *answer == number);
        self.passed
            .check(known.is_some(), true, format_args!("{number}, {asked}"));
        if let Some((_, count)) = known {
            *count += 1;
        }
    }

    /// An answer of upstream that never comes up is a failure of the inputs.
    pub fn subjects(self) -> [Subject; 2] {
        let name = format!("refused {}: upstream returns", self.number);
        [self.passed, Subject::of_cases(name, self.answers)]
    }
}
