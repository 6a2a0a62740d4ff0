//! What a builder's answer gets, in document 02's words.

use crate::{Numbers, Refusal};
use std::fmt;

/// A verdict on a builder's answer: the first that applies.
#[derive(Clone, Copy, Debug, PartialEq, Eq, Hash)]
pub enum Verdict {
    /// 50: malformed. Under 17 bytes, version not 2, or a length field that is not both the bytes after byte 4 and
    /// 12 + n + 2m of the answer's own n and m.
    Malformed,
    /// 51: other n or m.
    OtherCounts,
    /// 52: a side above 1 or a letter above 2.
    UnknownMark,
    /// 53: a `-` where that side's sums differ.
    FalseDash,
    /// 54: stated cost not the weight of disagreeing entries; a `-` costs either sum.
    WrongCost,
    /// 55: not least; the least cost.
    NotLeast { least: u32 },
    /// 56: least but other sides or letters than ours.
    OtherAnswer,
    /// 57: ours. The flip count is not judged.
    Ours,
}

impl Verdict {
    /// The verdict of a judging, or the refusal of its block.
    pub(crate) fn read(numbers: Numbers) -> Result<Self, Refusal> {
        Ok(match numbers.number {
            50 => Verdict::Malformed,
            51 => Verdict::OtherCounts,
            52 => Verdict::UnknownMark,
            53 => Verdict::FalseDash,
            54 => Verdict::WrongCost,
            55 => Verdict::NotLeast { least: numbers.second },
            56 => Verdict::OtherAnswer,
            57 => Verdict::Ours,
            _ => return Err(Refusal::read(numbers)),
        })
    }

    /// The number in document 02.
    pub fn number(&self) -> u32 {
        match self {
            Verdict::Malformed => 50,
            Verdict::OtherCounts => 51,
            Verdict::UnknownMark => 52,
            Verdict::FalseDash => 53,
            Verdict::WrongCost => 54,
            Verdict::NotLeast { .. } => 55,
            Verdict::OtherAnswer => 56,
            Verdict::Ours => 57,
        }
    }

    /// The second number: the least cost where the answer's is not least, else 0.
    pub fn second(&self) -> u32 {
        match *self {
            Verdict::NotLeast { least } => least,
            _ => 0,
        }
    }

    /// Document 02's words.
    pub fn words(&self) -> &'static str {
        match self {
            Verdict::Malformed => "malformed",
            Verdict::OtherCounts => "other n or m",
            Verdict::UnknownMark => "a side above 1 or a letter above 2",
            Verdict::FalseDash => "a - where that side's sums differ",
            Verdict::WrongCost => "stated cost not the weight of disagreeing entries",
            Verdict::NotLeast { .. } => "not least",
            Verdict::OtherAnswer => "least but other sides or letters than ours",
            Verdict::Ours => "ours",
        }
    }

    /// Whether no division and haplotypes cost less than the answer: 56 and 57.
    pub fn is_least(&self) -> bool {
        matches!(self, Verdict::OtherAnswer | Verdict::Ours)
    }
}

impl fmt::Display for Verdict {
    /// The words, and the least cost where the answer's is not least.
    fn fmt(&self, f: &mut fmt::Formatter) -> fmt::Result {
        f.write_str(self.words())?;
        match self {
            Verdict::NotLeast { least } => write!(f, ": the least cost is {least}"),
            _ => Ok(()),
        }
    }
}
