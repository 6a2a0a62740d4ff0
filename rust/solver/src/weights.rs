//! What the entries of a division weigh.

use crate::Block;

/// By side, column and letter: the weight of the side's entries there that have this letter.
pub fn weights(block: &Block, sides: &[u8]) -> [Vec<[u32; 2]>; 2] {
    let mut weights = [vec![[0; 2]; block.columns], vec![[0; 2]; block.columns]];
    for (read, &side) in block.reads.iter().zip(sides) {
        let span = &mut weights[usize::from(side)][usize::from(read.first)..];
        for (weights, (letter, weight)) in span.iter_mut().zip(block.cells(read)) {
            if letter < 2 {
                weights[usize::from(letter)] += weight;
            }
        }
    }
    weights
}
