//! What came of an answer.

use std::fmt;
use velejume::{Refusal, Verdict};

#[derive(Clone, Debug, PartialEq, Eq)]
pub enum Outcome {
    Judged(Verdict),
    /// the block is refused
    Refused(Refusal),
    NoAnswer,
    NoBlock,
    /// a file cannot be read, and why
    Unreadable(String),
}

impl Outcome {
    /// That a block or an answer cannot be read.
    pub fn unreadable(what: &str, why: impl fmt::Display) -> Self {
        Outcome::Unreadable(format!("the {what} cannot be read: {why}"))
    }

    pub fn is_ours(&self) -> bool {
        *self == Outcome::Judged(Verdict::Ours)
    }

    /// Whether no division and haplotypes cost less than the answer.
    pub fn is_least(&self) -> bool {
        matches!(self, Outcome::Judged(verdict) if verdict.is_least())
    }
}

impl fmt::Display for Outcome {
    fn fmt(&self, f: &mut fmt::Formatter) -> fmt::Result {
        match self {
            Outcome::Judged(verdict) => write!(f, "{} {verdict}", verdict.number()),
            Outcome::Refused(refusal) => write!(f, "refused {} at {}: {refusal}", refusal.number(), refusal.second()),
            Outcome::NoAnswer => write!(f, "a block without an answer"),
            Outcome::NoBlock => write!(f, "an answer without a block"),
            Outcome::Unreadable(why) => write!(f, "{why}"),
        }
    }
}
