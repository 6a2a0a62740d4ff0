//! A line for each answer, for other programs.

use crate::{Judged, Outcome};
use std::fmt::Display;

/// A field, `.` where there is nothing to say.
fn field(value: Option<impl Display>) -> String {
    value.map_or(".".to_string(), |value| value.to_string())
}

/// The number of the verdict or of the refusal, or what is missing.
fn verdict(outcome: &Outcome) -> String {
    match outcome {
        Outcome::Judged(verdict) => verdict.number().to_string(),
        Outcome::Refused(refusal) => refusal.number().to_string(),
        Outcome::NoAnswer => "no-answer".to_string(),
        Outcome::NoBlock => "no-block".to_string(),
        Outcome::Unreadable(_) => "unreadable".to_string(),
    }
}

/// Name, m, n, A, verdict, stated cost and least cost, with tabs between.
pub fn line(judged: &Judged) -> String {
    let numbers = &judged.numbers;
    let fields = [
        judged.name.clone(),
        field(numbers.columns),
        field(numbers.reads),
        field(numbers.active),
        verdict(&judged.outcome),
        field(numbers.stated),
        field(numbers.least),
    ];
    fields.join("\t") + "\n"
}
