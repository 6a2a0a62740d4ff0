//! Wish 4 of document 02: how sure each letter is.

use crate::checks::Placed;
use crate::weights::weights;
use crate::{Block, Mode, Numbers, Phase};

/// Phases a block in the general mode as `phase` does and writes the margins, haplotype 1's first. Refusal 13, of a run below 2m, comes
/// behind all others.
pub fn margins(phase: Phase, bytes: &[u8], work: &mut [u32], out: &mut [u8], margins: &mut [u32]) -> Numbers {
    let block = match Placed::accepted(bytes, work.len(), out.len()) {
        Ok(placed) => placed.block,
        Err(refusal) => return refusal,
    };
    let Some(run) = margins.get_mut(..2 * block.columns) else {
        return (13, 2 * block.columns as u32);
    };
    let numbers = phase(Mode::General, bytes, work, out);
    write(&block, &out[17..][..block.reads.len()], run);
    numbers
}

/// Writes the distance of the two sums of each side at each column, by the sides of the reads.
fn write(block: &Block, sides: &[u8], run: &mut [u32]) {
    let weights = weights(block, sides);
    for (margin, [zeros, ones]) in run.iter_mut().zip(weights.iter().flatten()) {
        *margin = zeros.abs_diff(*ones);
    }
}
