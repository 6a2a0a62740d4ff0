//! Letters and flips, once the sides are known.

use crate::block::weight;
use crate::{Block, Mode, answer};

/// By side and letter, holes beside: the number of entries above their weight, which has 20 bits (12 reads weigh at most
/// 786,420).
type Sums = [[u32; 3]; 2];

fn sums<const CELL: usize>(block: &Block, sides: &[u8]) -> Vec<Sums> {
    let mut sums = vec![Sums::default(); block.columns];
    for (read, &side) in block.reads.iter().zip(sides) {
        let span = &mut sums[usize::from(read.first)..usize::from(read.end)];
        for (sums, cell) in span.iter_mut().zip(block.bytes(read, CELL).chunks_exact(CELL)) {
            sums[usize::from(side & 1)][usize::from(cell[0])] += 1 << 20 | weight(cell);
        }
    }
    sums
}

/// Writes both haplotypes; gives the number of flips.
pub fn write<const CELL: usize>(mode: Mode, block: &Block, sides: &[u8], haplotypes: [&mut [u8]; 2]) -> u32 {
    let weights = |[zeros, ones, _]: [u32; 3]| [zeros & 0xfffff, ones & 0xfffff];
    let counts = |[zeros, ones, _]: [u32; 3]| [zeros >> 20, ones >> 20];
    let [first, second] = haplotypes;
    let mut flips = 0;
    for ((first, second), sums) in first.iter_mut().zip(second).zip(sums::<CELL>(block, sides)) {
        let (letters, differ) = answer::letters(mode, sums.map(weights), sums.map(counts));
        [*first, *second] = letters;
        flips += differ;
    }
    flips
}
