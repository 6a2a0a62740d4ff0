//! A share of a folder, so that many can judge it together.

use std::fmt;
use std::ops::Range;

/// One of so many shares, counted from 1. Shares follow each other: what comes of them, put one behind the other, is what comes
/// of the whole.
#[derive(Clone, Copy, Debug, PartialEq, Eq)]
pub struct Part {
    number: usize,
    of: usize,
}

impl Part {
    /// How many shares there can be.
    pub const MOST: usize = 1_000_000;

    /// `I/N`, with I from 1 to N.
    pub fn read(text: &str) -> Option<Self> {
        let (number, of) = text.split_once('/')?;
        let digits = |text: &str| text.bytes().all(|b| b.is_ascii_digit()).then(|| text.parse().ok()).flatten();
        let (number, of) = (digits(number)?, digits(of)?);
        (1 <= number && number <= of && of <= Self::MOST).then_some(Part { number, of })
    }

    /// Which of so many items are of this share.
    pub fn range(self, total: usize) -> Range<usize> {
        let before = |number: usize| (total as u128 * number as u128 / self.of as u128) as usize;
        before(self.number - 1)..before(self.number)
    }
}

impl fmt::Display for Part {
    fn fmt(&self, f: &mut fmt::Formatter) -> fmt::Result {
        write!(f, "part {} of {}", self.number, self.of)
    }
}
