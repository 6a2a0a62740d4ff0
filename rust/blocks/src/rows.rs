//! Random reads.

use crate::Random;
use matrix::{Cell, Row};

/// Where a read has holes.
#[derive(Clone, Copy)]
pub enum Gaps {
    None,
    /// two ends of one or two cells and nothing between
    Pair,
    /// each cell inside is a hole once in so many times
    OneIn(usize),
}

/// Weights at which a byte or a sum of 16 bits turns over.
pub const EDGES: [u16; 12] = [0, 1, 255, 256, 257, 511, 512, 4096, 32767, 32768, 65280, 65535];

/// Which weights entries have.
#[derive(Clone, Copy)]
pub enum Weights {
    UpTo(usize),
    Always(u16),
    OneOf(&'static [u16]),
    /// 0, but for one entry in so many
    ZeroButOneIn(usize),
}

#[derive(Clone, Copy)]
pub struct Style {
    pub gaps: Gaps,
    pub weights: Weights,
}

impl Style {
    fn weight(&self, random: &mut Random) -> u16 {
        match self.weights {
            Weights::UpTo(most) => random.within(0, most) as u16,
            Weights::Always(weight) => weight,
            Weights::OneOf(weights) => random.pick(weights),
            Weights::ZeroButOneIn(times) if random.one_in(times) => random.within(1, 3) as u16,
            Weights::ZeroButOneIn(_) => 0,
        }
    }

    /// A read with so many cells from a column on. The first and last are entries.
    pub fn row(&self, random: &mut Random, first: usize, cells: usize) -> Row {
        let ends = random.within(1, 2);
        let mut cell = |i: usize| -> Cell {
            let inside = 0 < i && i + 1 < cells;
            let hole = match self.gaps {
                Gaps::None => false,
                Gaps::Pair => i >= ends && i + ends < cells,
                Gaps::OneIn(times) => random.one_in(times),
            };
            let entry = (random.within(0, 1) as u8, self.weight(random));
            (!(inside && hole)).then_some(entry)
        };
        Row { first, cells: (0..cells).map(&mut cell).collect() }
    }

    /// A read anywhere from column `low` to before column `high`, of at most so many cells.
    pub fn row_within(&self, random: &mut Random, low: usize, high: usize, most: usize) -> Row {
        let cells = random.within(1, most.min(high - low));
        let first = random.within(low, high - cells);
        self.row(random, first, cells)
    }
}
