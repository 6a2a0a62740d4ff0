//! How many answers got each verdict.

use crate::{Judged, Outcome};
use std::fmt;
use velejume::Verdict;

const VERDICTS: [Verdict; 8] = [
    Verdict::Malformed,
    Verdict::OtherCounts,
    Verdict::UnknownMark,
    Verdict::FalseDash,
    Verdict::WrongCost,
    Verdict::NotLeast { least: 0 },
    Verdict::OtherAnswer,
    Verdict::Ours,
];

/// A row for each verdict and for each other thing that can come of an answer.
pub struct Tally {
    rows: Vec<(String, usize)>,
    pub total: usize,
    pub least: usize,
}

impl Tally {
    pub fn of(judged: &[Judged]) -> Self {
        let count = |is: &dyn Fn(&Outcome) -> bool| judged.iter().filter(|judged| is(&judged.outcome)).count();
        let number = |outcome: &Outcome| match outcome {
            Outcome::Judged(verdict) => verdict.number(),
            _ => 0,
        };
        let verdicts = VERDICTS.map(|verdict| {
            let row = format!("{} {}", verdict.number(), verdict.words());
            (row, count(&|outcome| number(outcome) == verdict.number()))
        });
        let others = [
            ("block refused", count(&|outcome| matches!(outcome, Outcome::Refused(_)))),
            ("block without an answer", count(&|outcome| *outcome == Outcome::NoAnswer)),
            ("answer without a block", count(&|outcome| *outcome == Outcome::NoBlock)),
            ("cannot be read", count(&|outcome| matches!(outcome, Outcome::Unreadable(_)))),
        ];
        let others = others.map(|(words, count)| (words.to_string(), count));
        let rows = verdicts.into_iter().chain(others).collect();
        Tally { rows, total: judged.len(), least: count(&Outcome::is_least) }
    }

    /// What can come of an answer and how many times it did.
    pub fn rows(&self) -> impl Iterator<Item = (&str, usize)> {
        self.rows.iter().map(|(words, count)| (words.as_str(), *count))
    }

    /// Whether every answer is least.
    pub fn fine(&self) -> bool {
        self.least == self.total
    }
}

impl fmt::Display for Tally {
    fn fmt(&self, f: &mut fmt::Formatter) -> fmt::Result {
        let width = self.rows.iter().map(|(words, _)| words.len()).max().unwrap_or(0);
        self.rows.iter().try_for_each(|(words, count)| writeln!(f, "{words:width$}{count:>9}"))?;
        writeln!(f, "{} of {} are least (56 or 57)", self.least, self.total)
    }
}
