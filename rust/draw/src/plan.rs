//! What is to be drawn.

use crate::{Kind, drawing};
use blocks::Random;
use matrix::Matrix;
use std::ops::RangeInclusive;

/// How many blocks can be drawn at once.
pub const COUNT: RangeInclusive<usize> = 1..=1_000_000;

/// How many columns a drawn block can have: enough for a gap, and no more than is lawful.
pub const COLUMNS: RangeInclusive<usize> = 3..=1024;

/// How many reads can be active in one column at most: enough for two sides, and no more than is lawful.
pub const DEPTH: RangeInclusive<usize> = 2..=12;

pub struct Plan {
    pub seed: u64,
    pub count: usize,
    /// of every block: in version 2 weights have two bytes
    pub version: u8,
    /// in turn, each of them one that the version has
    pub kinds: Vec<Kind>,
    /// m of every block; each has its own where none is given
    pub columns: Option<usize>,
    /// A of every block; each has its own where none is given
    pub depth: Option<usize>,
}

impl Plan {
    pub fn kind(&self, number: usize) -> Kind {
        self.kinds[number % self.kinds.len()]
    }

    /// The name of a block, by its number from 0.
    pub fn name(&self, number: usize) -> String {
        format!("{number:06}-{}", self.kind(number).name())
    }

    /// The matrix of a block. It depends on nothing but the seed, the number, the kind and what is given for all blocks; in both
    /// versions the same reads are drawn, with other weights.
    pub fn matrix(&self, number: usize) -> Matrix {
        let start = Random::new(self.seed).number();
        let mut random = Random::new(start.wrapping_add(number as u64));
        let (low, high) = random.pick(&[(3, 9), (6, 20), (15, 60), (40, 120)]);
        let columns = self.columns.unwrap_or(random.within(low, high));
        let depth = self.depth.unwrap_or(random.within(2, 8).max(random.within(2, 12)));
        drawing::matrix(self.kind(number), self.version, columns, depth, &mut random)
    }
}
