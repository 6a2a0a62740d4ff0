//! Wish 7 of document 02: a builder's answer, verdict by verdict.

use crate::weights::weights;
use crate::{Block, Mode, Numbers, Phase, Stated};

/// The bytes of the longest answer: 1,024 reads and 1,024 columns.
const LONGEST: usize = 17 + 1024 + 2 * 1024;

/// Judges a builder's answer beside the one that `phase` finds in the general mode: the refusal of the block, 1 to 10 or 38, or the
/// first verdict that applies, with the table in the work room.
pub fn judge(phase: Phase, block: &[u8], answer: &[u8], work: &mut [u32]) -> Numbers {
    let mut ours = vec![0; LONGEST];
    match (phase(Mode::General, block, work, &mut ours), Block::read(block)) {
        ((0, least), Ok(block)) => verdict(&block, answer, &ours, least),
        (refusal, _) => refusal,
    }
}

fn verdict(block: &Block, answer: &[u8], ours: &[u8], least: u32) -> Numbers {
    let Some(stated) = Stated::read(answer) else {
        return (50, 0);
    };
    if stated.sides.len() != block.reads.len() || stated.letters[0].len() != block.columns {
        return (51, 0);
    }
    if stated.sides.iter().any(|&side| side > 1) || stated.letters.concat().iter().any(|&letter| letter > 2) {
        return (52, 0);
    }
    match disagreeing(block, &stated) {
        None => (53, 0),
        Some(weight) if weight != stated.cost => (54, 0),
        Some(weight) if weight > least => (55, least),
        Some(_) if answer[17..] != ours[17..answer.len()] => (56, 0),
        Some(_) => (57, 0),
    }
}

/// The weight of the entries that disagree with the stated haplotypes, a `-` at either sum; None if there is a `-` where
/// that side's sums differ.
fn disagreeing(block: &Block, stated: &Stated) -> Option<u32> {
    let mut sum = 0;
    for (weights, letters) in weights(block, stated.sides).iter().zip(stated.letters) {
        for (&[zeros, ones], letter) in weights.iter().zip(letters) {
            sum += match letter {
                0 => ones,
                1 => zeros,
                _ if zeros == ones => zeros,
                _ => return None,
            };
        }
    }
    Some(sum)
}
