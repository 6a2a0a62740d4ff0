//! The answer block: its version, its letters, its head, its parts.

use crate::{Block, Mode};

/// The version of the answer block.
const VERSION: u8 = 2;

/// By side and letter: something of the entries of a column that are on this side and have this letter.
pub type Entries = [[u32; 2]; 2];

/// What a 0 and what a 1 costs on each side, with the letter that the mode asks for on the other.
fn prices(mode: Mode, [[zeros, ones], [other_zeros, other_ones]]: Entries) -> Entries {
    match mode {
        Mode::General => [[ones, zeros], [other_ones, other_zeros]],
        Mode::Heterozygous => {
            let (zero, one) = (ones + other_zeros, zeros + other_ones);
            [[zero, one], [one, zero]]
        }
    }
}

/// The letters that are reported of both sides, by the weights of a column's entries: 2, no letter, where both cost the same. And
/// how many entries there are that differ from their side's letter, which is 1 at a tie, and 0 where it has to differ from such a 1.
pub fn letters(mode: Mode, weights: Entries, counts: Entries) -> ([u8; 2], u32) {
    let prices = prices(mode, weights);
    let [first, second] = prices.map(|[zero, one]| u8::from(zero >= one));
    let chosen = [first, if mode == Mode::General { second } else { 1 - first }];
    let differ = |side: usize| counts[side][usize::from(1 - chosen[side])];
    let reported = |side: usize| if prices[side][0] == prices[side][1] { 2 } else { chosen[side] };
    ([reported(0), reported(1)], differ(0) + differ(1))
}

pub fn length(block: &Block) -> usize {
    17 + block.reads.len() + 2 * block.columns
}

/// Writes what stands before the sides.
pub fn write_head(block: &Block, cost: u32, flips: u32, out: &mut [u8]) {
    out[0] = VERSION;
    out[1..5].copy_from_slice(&(length(block) as u32 - 5).to_be_bytes());
    out[5..9].copy_from_slice(&cost.to_be_bytes());
    out[9..13].copy_from_slice(&flips.to_be_bytes());
    out[13..15].copy_from_slice(&(block.reads.len() as u16).to_be_bytes());
    out[15..17].copy_from_slice(&(block.columns as u16).to_be_bytes());
}

/// The parts of the output that hold the sides, haplotype 1 and haplotype 2.
pub fn parts<'a>(block: &Block, out: &'a mut [u8]) -> (&'a mut [u8], [&'a mut [u8]; 2]) {
    let (sides, rest) = out[17..].split_at_mut(block.reads.len());
    let (first, rest) = rest.split_at_mut(block.columns);
    (sides, [first, &mut rest[..block.columns]])
}
