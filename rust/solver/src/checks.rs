//! Refusals 1 to 11, in order; 38 is between 5 and 6.

use crate::{Block, Numbers, answer};

/// A block that passes checks 1 to 9, and T.
pub struct Placed<'a> {
    pub block: Block<'a>,
    pub width: usize,
}

/// How many entries stand for the divisions of so many active reads.
pub fn entries(active: usize) -> usize {
    1 << active.saturating_sub(1)
}

/// A, or refusal 9: reads begin and end, and the sum of both is how many are active.
fn most_active(block: &Block) -> Result<usize, Numbers> {
    let mut change = vec![0i16; block.columns + 1];
    for read in &block.reads {
        change[usize::from(read.first)] += 1;
        change[usize::from(read.end)] -= 1;
    }
    let (mut active, mut most) = (0, 0);
    for (column, change) in change.iter().enumerate() {
        active += change;
        if active > 12 {
            return Err((9, column as u32));
        }
        most = most.max(active);
    }
    Ok(most as usize)
}

impl<'a> Placed<'a> {
    fn read(bytes: &'a [u8]) -> Result<Self, Numbers> {
        let block = Block::read(bytes)?;
        let width = entries(most_active(&block)?);
        Ok(Placed { block, width })
    }

    /// All checks, for a block and the sizes of both rooms.
    pub fn accepted(bytes: &'a [u8], work: usize, out: usize) -> Result<Self, Numbers> {
        let placed = Self::read(bytes)?;
        let (entries, length) = placed.rooms();
        if work < entries {
            return Err((10, entries as u32));
        }
        if out < length {
            return Err((11, length as u32));
        }
        Ok(placed)
    }

    fn rooms(&self) -> (usize, usize) {
        (self.block.columns * self.width, answer::length(&self.block))
    }
}

/// The rooms that a block needs, m × T entries and 17 + n + 2m bytes, or refusal 1 to 9 or 38.
pub fn rooms(bytes: &[u8]) -> Result<(usize, usize), Numbers> {
    Ok(Placed::read(bytes)?.rooms())
}
